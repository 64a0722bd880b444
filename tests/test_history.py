"""What an operator sees of the services and of what was changed: `healthd status` and `healthd history`."""
import contextlib
import json
import os
import pty
import re
import socket
import subprocess
import threading
import time

import pytest

from support.lasting import lasting
from support.process import freeze, thaw
from support.waiting import until

pytestmark = pytest.mark.timed

SCRIPT = ("catalogue db api web - slow gone\nregister db threshold 2 3\nregister api manual\n"
          "register web depends db api\nregister - depends web\nregister slow threshold 1 1 unknown\n")
TIME = r"\d{4}-\d\d-\d\dT\d\d:\d\d:\d\d\.\d{6}Z"


def has_outage(server):
    """It has a small outage: entries 5, 6 and 7."""
    for line in ("fail db", "fail db", "pass db"):
        assert server.tell(*line.split()) == ("done", 0)
    return server


@pytest.fixture(scope="module")
def outage(program):
    """A server with a small outage, of which the tests only ask."""
    with lasting(program, script=SCRIPT) as server:
        yield has_outage(server)


@pytest.fixture
def server(start):
    """One with the same outage, which a test may change."""
    return has_outage(start(script=SCRIPT))


def ran(program, command, *options, place=None, env=None):
    """What a command prints, what it says, and its exit status."""
    done = program.run(command, *(("--control", place) if place else ()), *options, env=env)
    return done.stdout, done.stderr, done.returncode


def shown(server, command, *options):
    """What a command prints where nothing goes wrong."""
    out, said, status = ran(server.program, command, *options, place=server.control)
    assert (said, status) == ("", 0)
    return out


# Which server is asked.

@pytest.mark.parametrize("words", [("tell", "list"), ("status",), ("history",)], ids=lambda words: words[0])
def test_a_command_asks_where_healthd_control_says(program, outage, words):
    at_place = ran(program, *words, place=outage.control)
    assert at_place[0] and at_place[2] == 0
    assert ran(program, *words, env={"HEALTHD_CONTROL": outage.control}) == at_place


def test_the_option_control_goes_before_healthd_control(program, outage):
    assert ran(program, "status", place=outage.control, env={"HEALTHD_CONTROL": "/nowhere"})[2] == 0


def test_an_empty_healthd_control_says_nothing(program):
    _, said, status = ran(program, "status", env={"HEALTHD_CONTROL": ""})
    assert status == 2 and "--control <PLACE>" in said


def test_at_a_place_where_nobody_listens_a_command_says_so(program):
    assert ran(program, "status", place="/run/healthd-nowhere") == ("", "healthd: connect /run/healthd-nowhere: not found\n", 1)


@pytest.mark.parametrize("command", ["status", "history"])
def test_a_place_that_is_none_is_refused(program, command):
    _, said, status = ran(program, command, place="nowhere")
    assert status == 2 and f"Usage: healthd {command}" in said and "'nowhere'" in said


@pytest.mark.parametrize("command", ["status", "history"])
def test_a_timeout_of_0_is_refused(program, outage, command):
    assert ran(program, command, "--timeout", "0", place=outage.control)[2] == 2


@pytest.mark.parametrize("words", [("status",), ("history",), ("history", "--follow")], ids=" ".join)
def test_a_command_gives_up_where_the_server_is_silent(program, folder, words):
    with socket.socket(socket.AF_UNIX) as silent:
        silent.bind(f"{folder}/silent")
        silent.listen()
        assert ran(program, *words, "--timeout", "1", place=f"{folder}/silent") == ("", "healthd: timed out\n", 1)


# The table of a small outage.

def rows_of(table):
    return [re.split(r" {2,}", line) for line in table.splitlines()[1:]]


@pytest.fixture
def table(outage):
    return shown(outage, "status")


def test_a_table_has_no_colours_where_it_is_no_terminal_s_and_no_line_ends_in_a_space(table):
    assert "\x1b" not in table
    assert [line for line in table.splitlines() if line != line.rstrip()] == []


def test_the_titles_of_a_table(table):
    assert table.splitlines()[0].split() == ["NAME", "STATUS", "SINCE", "WHY", "EXPECTED", "REPORTED"]


def test_a_table_has_the_services_of_the_catalogue_with_their_statuses(table):
    assert [row[:2] for row in rows_of(table)] == [
        ["db", "not_serving"], ["api", "serving"], ["web", "not_serving"], ["-", "not_serving"], ["slow", "unknown"], ["gone", "absent"]]


def test_a_table_tells_why_services_have_their_statuses(table):
    assert [row[3] for row in rows_of(table)] == [
        "2 fails in a row up to entry 6, 1 of 3 passes since", "-", "depends on db", "depends on web",
        "nothing heard since entry 4", "never registered"]


def test_a_table_tells_since_when_services_have_their_statuses(table):
    *known, last = [row[2] for row in rows_of(table)]
    assert len(known) == 5 and all(re.fullmatch(r"\d{4}-\d\d-\d\d \d\d:\d\d:\d\dZ", since) for since in known), known
    assert last == "-"


def test_the_columns_of_a_table_are_below_their_titles(table):
    titles, *lines = table.splitlines()
    assert all(line[titles.index("STATUS"):].startswith(row[1]) for line, row in zip(lines, rows_of(table))), table


# The same for programs.

@pytest.fixture
def services(outage):
    return json.loads(shown(outage, "status", "--json"))


def test_each_object_of_a_service_has_these_keys_in_this_order(services):
    assert [list(each) for each in services] == [["name", "status", "since", "reported", "expected_seconds", "why"]] * 6


def test_the_whole_server_has_the_empty_name_in_its_object(services):
    assert [each["name"] for each in services] == ["db", "api", "web", "", "slow", "gone"]


def test_an_object_tells_why_and_since_when(services):
    by_name = {each["name"]: each for each in services}
    assert by_name["web"]["why"] == "depends on db" and by_name["api"]["why"] is None
    assert by_name["db"]["since"]["entry"] == 6 and re.fullmatch(TIME, by_name["db"]["since"]["time"])


def test_an_object_knows_nothing_of_a_service_that_was_never_there(services):
    (gone,) = [each for each in services if each["name"] == "gone"]
    assert gone["since"] is None and gone["status"] == "absent"


# Colours.

@pytest.fixture
def on_terminal(program):
    """What `status` prints on a terminal. The environment of the tests does not count."""
    def run(place, **env):
        ours, its = pty.openpty()
        environment = {name: value for name, value in program.environment.items() if name != "NO_COLOR"}
        process = subprocess.Popen([program.path, "status", "--control", place], stdin=subprocess.DEVNULL, stdout=its, env={**environment, **env})
        os.close(its)
        text = b""
        # A terminal that nobody has any more fails.
        with contextlib.suppress(OSError):
            while part := os.read(ours, 4096):
                text += part
        os.close(ours)
        process.wait(10)
        return text.decode().replace("\r\n", "\n")
    return run


def test_statuses_have_colours_on_a_terminal_and_else_the_text_is_the_same(outage, table, on_terminal):
    coloured = on_terminal(outage.control)
    for part in ("\x1b[31mnot_serving\x1b[0m", "\x1b[32mserving\x1b[0m", "\x1b[33munknown\x1b[0m", "\x1b[2mabsent\x1b[0m"):
        assert part in coloured
    assert re.sub(r"\x1b\[\d+m", "", coloured) == table


def test_no_color_forbids_colours(outage, table, on_terminal):
    assert on_terminal(outage.control, NO_COLOR="1") == table


def test_no_color_does_not_forbid_them_where_it_is_empty(outage, on_terminal):
    coloured = on_terminal(outage.control, NO_COLOR="")
    assert "\x1b[" in coloured and coloured == on_terminal(outage.control)


# The history.

@pytest.fixture
def history(outage):
    return shown(outage, "history")


def test_all_entries_are_printed_the_oldest_first(history):
    assert [int(line.split()[0]) for line in history.splitlines()] == list(range(8))


def test_an_entry_tells_its_time_and_who_made_it(history):
    lines = history.splitlines()
    assert re.fullmatch(rf"0 {TIME} setup register db threshold 2 3: done", lines[0])
    assert re.fullmatch(rf"7 {TIME} session \d+ pass db: done", lines[7])


def test_an_entry_is_printed_as_the_server_answers_it(outage, history):
    assert outage.tell("entry", "7") == (history.splitlines()[7], 0)


@pytest.mark.parametrize("last, begins", [("2", 6), ("0", 8), ("4294967295", 0)])
def test_so_many_of_the_last_entries_are_printed(outage, history, last, begins):
    assert shown(outage, "history", "--last", last) == "".join(history.splitlines(True)[begins:])


def test_objects_of_entries_have_these_keys_and_tell_the_same(outage, history):
    entries = [json.loads(line) for line in shown(outage, "history", "--json", "--last", "3").splitlines()]
    assert [list(each) for each in entries] == [["entry", "time", "who", "call", "reply"]] * 3
    assert [f"{each['entry']} {each['time']} {each['who']} {each['call']}: {each['reply']}" for each in entries] == history.splitlines()[5:]


# The status of a service, as a line of a session tells it: with the times of the entries that it names, and how often it alone is expected.
@pytest.mark.parametrize("name, told", [
    ("db", "since 6 {6} reported 7 {7} expected - not_serving: 2 fails in a row up to entry 6, 1 of 3 passes since"),
    ("api", "since 1 {1} reported - - expected - serving"),
    ("web", "since 6 {6} reported - - expected - not_serving: depends on db"),
    ("slow", "since 4 {4} reported - - expected 3600 unknown: nothing heard since entry 4"),
    ("gone", "since - - reported - - expected - absent: never registered"),
], ids=["db", "api", "web", "slow", "gone"])
def test_a_session_is_told_since_when_and_why_a_service_has_its_status(server, name, told):
    assert server.tell("expect", "slow", "3600") == ("done", 0)
    times = [line.split()[1] for line in shown(server, "history").splitlines()]
    assert server.tell("status", name) == (told.format(*times), 0)


# What is printed of answers that no server of these tests gives.

@contextlib.contextmanager
def giving(answers, place):
    """A place that gives one session these answers at once."""
    with socket.socket(socket.AF_UNIX) as listener:
        listener.bind(place)
        listener.listen()

        def serve():
            client, _ = listener.accept()
            with client:
                client.sendall("".join(f"{answer}\n" for answer in answers).encode())
                client.shutdown(socket.SHUT_WR)
                while client.recv(65536):
                    pass

        thread = threading.Thread(target=serve, daemon=True)
        thread.start()
        yield
        thread.join(20)


@pytest.fixture
def given(program, folder):
    """What a command makes of these answers."""
    def run(answers, *command):
        with giving(answers, f"{folder}/given"):
            return ran(program, *command, place=f"{folder}/given")
    return run


@pytest.fixture
def refused(given, folder):
    """A command prints nothing, and says the last answer, because that has another form."""
    def run(answers, *command):
        assert given(answers, *command) == ("", f"healthd: {folder}/given answered {answers[-1]}\n", 1)
    return run


# A status ends at the first `: `, whatever the names after it are, and names hold what JSON has to escape.
ROWS = {
    "all that may be known": (
        "api", "since 4711 2026-11-26T01:45:09.123456Z reported 4710 2026-11-26T01:45:08.000000Z expected 30 not_serving: depends on db",
        '{"name":"api","status":"not_serving","since":{"entry":4711,"time":"2026-11-26T01:45:09.123456Z"},'
        '"reported":{"entry":4710,"time":"2026-11-26T01:45:08.000000Z"},"expected_seconds":30,"why":"depends on db"}'),
    "a service that was never there": (
        "api", "since - - reported - - expected - absent: never registered",
        '{"name":"api","status":"absent","since":null,"reported":null,"expected_seconds":null,"why":"never registered"}'),
    "the whole server": (
        "-", "since 3 - reported - - expected - serving",
        '{"name":"","status":"serving","since":{"entry":3,"time":null},"reported":null,"expected_seconds":null,"why":null}'),
    "the largest numbers": (
        "a=b:c", "since 0 - reported 4294967295 - expected 4294967295 unknown: nothing heard since entry 3",
        '{"name":"a=b:c","status":"unknown","since":{"entry":0,"time":null},"reported":{"entry":4294967295,"time":null},'
        '"expected_seconds":4294967295,"why":"nothing heard since entry 3"}'),
    "a name to escape": (
        '"q"\\', "since 16 - reported 16 - expected 5 not_serving: 2 fails in a row up to entry 14, 0 of 1 passes since",
        '{"name":"\\"q\\"\\\\","status":"not_serving","since":{"entry":16,"time":null},"reported":{"entry":16,"time":null},'
        '"expected_seconds":5,"why":"2 fails in a row up to entry 14, 0 of 1 passes since"}'),
    "a reason with a colon": (
        "größe", "since 1 - reported - - expected - not_serving: depends on serving: db",
        '{"name":"größe","status":"not_serving","since":{"entry":1,"time":null},"reported":null,"expected_seconds":null,'
        '"why":"depends on serving: db"}'),
    "a name of two dashes": (
        "--", "since 1 - reported - - expected - unknown",
        '{"name":"--","status":"unknown","since":{"entry":1,"time":null},"reported":null,"expected_seconds":null,"why":null}'),
    "an empty reason": (
        "x", "since 1 - reported - - expected 0 absent: ",
        '{"name":"x","status":"absent","since":{"entry":1,"time":null},"reported":null,"expected_seconds":0,"why":""}'),
    "a reason to escape": (
        '"q"=\\:', 'since - - reported - - expected - not_serving: depends on "\t\\',
        '{"name":"\\"q\\"=\\\\:","status":"not_serving","since":null,"reported":null,"expected_seconds":null,"why":"depends on \\"\\t\\\\"}'),
}


@pytest.mark.parametrize("name, answer, row", ROWS.values(), ids=ROWS)
def test_an_object_is_printed_of_what_a_server_answers(given, name, answer, row):
    assert given([f"{name}=absent", answer], "status", "--json") == (f"[{row}]\n", "", 0)


def test_objects_are_printed_of_all_that_a_server_answers(given):
    answers = [" ".join(f"{name}=absent" for name, _, _ in ROWS.values()), *(answer for _, answer, _ in ROWS.values())]
    assert given(answers, "status", "--json") == (f"[{','.join(row for _, _, row in ROWS.values())}]\n", "", 0)


@pytest.mark.parametrize("answer", ["", "not found"], ids=["nothing", "not found"])
def test_a_list_of_another_form_is_said(refused, answer):
    refused([answer], "status", "--json")


@pytest.mark.parametrize("answer", [
    "not found", "", "since", "since ", "since 1", "since 1 -", "since 1 - reported - -", "since 1 - reported - - expected 30",
    "since 1 - reported - - expected 30 ", "since 1 - reported - - expected 30 asleep", "since 1 - reported - - expected 30 SERVING",
    "since 1 - reported - - expected 30 serving ", "since 1 - reported - - expected soon serving", "since x - reported - - expected - serving",
    "since 4294967296 - reported - - expected - serving", "since - 2026-11-26T01:45:09.123456Z reported - - expected - serving",
    "since 1 - reported -  - expected - serving", "Since 1 - reported - - expected - serving"], ids=lambda answer: repr(answer)[:60])
def test_an_answer_of_another_form_is_said(refused, answer):
    refused(["api=serving", answer], "status", "--json")


TOLD = ["db=serving api=not_serving -=unknown größe=absent",
        "since 14 2026-11-26T01:45:08.000000Z reported 15 2026-11-26T01:45:09.123456Z expected 30 serving",
        "since 4711 2026-11-26T01:45:09.999999Z reported 4 - expected 600 not_serving: depends on db",
        "since 3 - reported - - expected - unknown: nothing heard since entry 3", "since - - reported - - expected - absent: never registered"]
TABLE = """NAME   STATUS       SINCE                 WHY                          EXPECTED  REPORTED
db     serving      2026-11-26 01:45:08Z  -                            30 s      2026-11-26 01:45:09Z
api    not_serving  2026-11-26 01:45:09Z  depends on db                600 s     entry 4
-      unknown      entry 3               nothing heard since entry 3  -         -
größe  absent       -                     never registered             -         -
"""
COLOURED = """NAME   STATUS       SINCE                 WHY                          EXPECTED  REPORTED
db     \x1b[32mserving\x1b[0m      2026-11-26 01:45:08Z  -                            30 s      2026-11-26 01:45:09Z
api    \x1b[31mnot_serving\x1b[0m  2026-11-26 01:45:09Z  depends on db                600 s     entry 4
-      \x1b[33munknown\x1b[0m      entry 3               nothing heard since entry 3  -         -
größe  \x1b[2mabsent\x1b[0m       -                     never registered             -         -
"""
# Over a table it says where the journal can't be written, by the last number of `stats`. A server without that number may write.
UNSAID = "entries 4 kept 4 connections 0 watches 0 sessions 1 calls 0 given_up 0 behind 0 gone 0 expired 0 left 9"
NOT_WRITABLE = "journal not writable: no change takes effect\n"


@pytest.mark.parametrize("counted, first", [
    pytest.param(f"{UNSAID} writable 1", "", id="writable"),
    pytest.param(f"{UNSAID} writable 0", NOT_WRITABLE, id="not writable"),
    pytest.param(UNSAID, "", id="unsaid")])
def test_a_table_is_printed_of_what_a_server_answers_and_over_it_where_services_can_t_be_changed(given, counted, first):
    assert given([*TOLD, counted], "status") == (first + TABLE, "", 0)


def test_on_a_terminal_the_same_table_has_colours_in_the_same_columns(on_terminal, folder):
    with giving([*TOLD, f"{UNSAID} writable 1"], f"{folder}/given"):
        assert on_terminal(f"{folder}/given") == COLOURED


def test_times_of_another_form_are_left_as_they_are(given):
    assert given([
        "a=serving b=serving c=serving 健康=serving", "since 1 2026-11-26T01:45:09Z reported 1 noon expected - serving",
        "since 1 TZ reported 1 2026-11-26T01:45:09 expected - serving", "since 1 2026Z reported 1 - expected - serving: ",
        "since 1 - reported - - expected - serving: 健康", f"{UNSAID} writable 1"], "status") == ("""\
NAME  STATUS   SINCE                 WHY  EXPECTED  REPORTED
a     serving  2026-11-26 01:45:09Z  -    -         noon
b     serving  TZ                    -    -         2026-11-26T01:45:09
c     serving  2026Z                 -    -         entry 1
健康    serving  entry 1               健康   -         -
""", "", 0)


# The reply of an entry is after the last `: `, and a name may hold `:`.
ENTRIES = [
    ("4711 2026-11-26T01:45:09.123456Z session 3 down api: done",
     '{"entry":4711,"time":"2026-11-26T01:45:09.123456Z","who":"session 3","call":"down api","reply":"done"}'),
    ("0 2026-11-26T01:45:08.000000Z setup register db threshold 2: done",
     '{"entry":0,"time":"2026-11-26T01:45:08.000000Z","who":"setup","call":"register db threshold 2","reply":"done"}'),
    ("12 2026-11-26T01:45:08.000000Z expiry fail db: done",
     '{"entry":12,"time":"2026-11-26T01:45:08.000000Z","who":"expiry","call":"fail db","reply":"done"}'),
    ("4294967295 - - up -: done", '{"entry":4294967295,"time":null,"who":null,"call":"up -","reply":"done"}'),
    ("7 - session 4294967295 stop: stopping", '{"entry":7,"time":null,"who":"session 4294967295","call":"stop","reply":"stopping"}'),
    ("- 2026-11-26T01:45:08.000000Z setup up a: done",
     '{"entry":null,"time":"2026-11-26T01:45:08.000000Z","who":"setup","call":"up a","reply":"done"}'),
    ("7 - session 1 register db: depends a: done", '{"entry":7,"time":null,"who":"session 1","call":"register db: depends a","reply":"done"}'),
    ("7 - - down a:b: done", '{"entry":7,"time":null,"who":null,"call":"down a:b","reply":"done"}'),
    ('7 - - down "größe"\\: done', '{"entry":7,"time":null,"who":null,"call":"down \\"größe\\"\\\\","reply":"done"}'),
]
STATS = "entries 9 kept 9 refused 0"
ONE = "entries 1 kept 1 refused 0"


def test_entries_of_each_kind_are_printed_as_they_are(given):
    answers = [answer for answer, _ in ENTRIES]
    assert given([STATS, *answers], "history") == ("".join(f"{answer}\n" for answer in answers), "", 0)


def test_an_object_is_printed_of_an_entry_of_each_kind(given):
    assert given([STATS, *(answer for answer, _ in ENTRIES)], "history", "--json") == ("".join(f"{row}\n" for _, row in ENTRIES), "", 0)


def test_nothing_is_printed_of_an_entry_that_is_forgotten(given):
    assert given([ONE, "forgotten"], "history", "--json") == ("", "", 0)


@pytest.mark.parametrize("answer", [
    "none yet", "not found", "", "7", "7 -", "7 - -", "7 - - down a", "7 - session 3", "7 - session x down a: done",
    "7 - session  down a: done", "7 - somebody down a: done", "x - - down a: done", "4294967296 - - down a: done"], ids=repr)
def test_an_entry_of_another_form_is_said(refused, answer):
    refused([ONE, answer], "history", "--json")


# Following.

class Following:
    """A `history --follow`, and the lines that it has printed."""

    def __init__(self, server, *options):
        self.process = subprocess.Popen([str(server.program), "history", "--control", server.control, "--follow", *options], text=True,
                                        env=server.program.environment, stdin=subprocess.DEVNULL, stdout=subprocess.PIPE, stderr=subprocess.PIPE)
        self.lines = []
        self.reader = threading.Thread(target=self.read, daemon=True)
        self.reader.start()

    def read(self):
        for line in self.process.stdout:
            self.lines.append(line.strip())

    def wait(self, count):
        """The lines, once there are so many."""
        until(lambda: len(self.lines), count, 20)
        return self.lines

    def __enter__(self):
        return self

    def __exit__(self, *_):
        if self.process.poll() is None:
            self.process.kill()
        self.process.wait(10)
        self.reader.join(10)
        self.process.stdout.close()
        self.process.stderr.close()


@contextlib.contextmanager
def following_both(server):
    """One that follows from the last entry on, and one that prints no entry which is there, and so nothing that tells that it follows."""
    with Following(server, "--last", "1") as following, Following(server, "--last", "0", "--json") as later:
        following.wait(1)
        # Whoever asks has a session too.
        until(lambda: server.stats()["sessions"], 3)
        time.sleep(0.6)  # more than the time from one look for entries to the next: the later one has printed none
        assert later.lines == []
        yield following, later


def test_what_is_kept_is_followed_first_and_then_each_change_within_a_second(server, within):
    kept = shown(server, "history").splitlines()[7]
    with following_both(server) as (following, later):
        assert following.lines == [kept]
        assert server.tell("down", "api") == ("done", 0)
        with within(1):
            following.wait(2)
        assert re.fullmatch(rf"8 {TIME} session \d+ down api: done", following.lines[1])
        assert json.loads(later.wait(1)[0])["call"] == "down api"


def test_of_many_changes_none_is_missing_for_those_who_follow(server):
    assert server.tell("down", "api") == ("done", 0)
    with Following(server, "--last", "2") as following, Following(server, "--last", "1", "--json") as later, server.session() as session:
        following.wait(2)
        later.wait(1)
        session.send("pass db\n" * 20)
        assert [int(line.split()[0]) for line in following.wait(22)] == list(range(7, 29))
        assert [json.loads(line)["entry"] for line in later.wait(21)] == list(range(8, 29))


def test_following_ends_where_nobody_reads_what_is_printed(server):
    with subprocess.Popen([str(server.program), "history", "--control", server.control, "--follow"], text=True, env=server.program.environment,
                          stdin=subprocess.DEVNULL, stdout=subprocess.PIPE, stderr=subprocess.PIPE) as leaving:
        leaving.stdout.readline()
        leaving.stdout.close()
        assert server.tell("up", "api") == ("done", 0)
        assert (leaving.stderr.read(), leaving.wait(5)) == ("healthd: write: broken pipe\n", 1)


def test_a_follower_whose_session_was_ended_for_one_that_came_goes_on_by_another(server):
    with Following(server, "--last", "1") as following:
        following.wait(1)
        freeze(following.process)
        time.sleep(1.2)  # it says nothing for more than a second
        with contextlib.ExitStack() as opened:
            # There are sixteen without the follower, whose session is ended for the last of them.
            sessions = [opened.enter_context(server.session()) for _ in range(16)]
            assert [session.ask("check api") for session in sessions] == ["serving"] * 16
        until(lambda: server.stats()["sessions"], 1)
        assert server.tell("down", "api") == ("done", 0)
        thaw(following.process)
        assert following.wait(2)[1].endswith(" down api: done")


def test_following_ends_well_where_the_server_ends(server):
    with following_both(server) as both:
        server.stop()
        for each in both:
            assert (each.process.wait(10), each.process.stderr.read()) == (0, "")
