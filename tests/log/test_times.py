"""When something came about: in the log, in the history, and in the status of services, however long ago it was."""
import json
import re
import time
from types import SimpleNamespace

import pytest

from support.lasting import lasting
from support.log import seconds_of
from support.plain import Numbers
from support.waiting import until

SCRIPT = "catalogue db api -\nmax 8\nregister db threshold 2\nregister api manual\nregister - depends db api\nexpect db 3600\n"
TWO = "register db threshold 2\nregister api threshold 1\n"


def shown(server, command, *options):
    """What a command prints where nothing goes wrong."""
    ran = server.program.run(command, "--control", server.control, *options)
    assert (ran.stderr, ran.returncode) == ("", 0)
    return ran.stdout


def rows(server):
    return json.loads(shown(server, "status", "--json"))


# A server whose history becomes full while a service is not heard from.

@pytest.fixture(scope="module")
def full(program):
    """What it has told of the service before and after, when it began, and its log."""
    begins = time.time()
    with lasting(program, "--report", "127.0.0.1:0", "--plain", "127.0.0.1:0", script=SCRIPT) as server:
        assert server.tell("down", "api") == ("done", 0)
        assert server.tell("pass", "db", place=server.report) == ("done", 0)
        assert server.tell("up", "nobody")[0] == "refused not listed"
        with server.session() as session:
            assert session.ask_many("up api", 2) == ["done"] * 2
        before = rows(server)[0]
        assert server.tell("expect", "db", "1") == ("done", 0)
        # Of two fails there is room for one. The other is refused each second.
        until(lambda: Numbers(server.plain).causes["full"] >= 3, True, 20)
        yield SimpleNamespace(server=server, begins=begins, before=before, after=rows(server)[0], log=server.log(), written=server.written())


def is_of_this_run(full, text):
    return full.begins - 0.001 <= seconds_of(text) <= time.time()


def test_a_status_has_the_time_of_the_setup_and_a_report_its_own_and_it_is_told_how_often_one_is_expected(full):
    since, reported = full.before["since"], full.before["reported"]
    assert (since["entry"], reported["entry"], full.before["expected_seconds"]) == (0, 4, 3_600)
    assert since["time"] < reported["time"]


def test_a_fail_that_the_server_makes_is_no_report(full):
    assert (full.after["since"]["entry"], full.after["reported"]["entry"], full.after["status"]) == (0, 4, "serving")


def test_the_history_has_who_asked_and_when_one_after_the_other(full):
    entries = shown(full.server, "history").splitlines()
    assert [re.match(r"\d+ \S+ (session \d+|\w+)", line)[1] for line in entries] == [
        *["setup"] * 3, "session 1", "session 2", "session 4", "session 4", "expiry"]
    times = [line.split()[1] for line in entries]
    assert times == sorted(times)
    assert [text for text in times if not is_of_this_run(full, text)] == []


def test_each_line_of_the_log_is_of_this_run(full):
    assert [line for line in full.written if not is_of_this_run(full, line)] == []


@pytest.mark.parametrize("line", [
    "WARN  db: not heard from for 1 s, 1 fail made, entry 7", "WARN  all 8 entries are made",
    "WARN  a change of session 3 was refused: not listed", "WARN  a change of expiry was refused: full",
])
def test_what_is_so_again_and_again_is_told_once(full, line):
    assert full.log.count(line) == 1, full.log


# A line comes later than what it is about.

def test_a_line_about_an_entry_has_the_time_of_the_entry(start):
    server = start(script=f"catalogue db api -\n{TWO}register - manual\n")
    for line, entry in (("fail api", 3), ("expect db 1", 5), ("pass db", 8)):
        assert server.tell(*line.split()) == ("done", 0)
        until(lambda: any(f"not_serving, entry {entry} " in line for line in server.log()), True, 20)
    made = {line.split()[0]: line.split()[1] for line in shown(server, "history").splitlines()}
    noted = re.findall(r"^(\S+) .* entry (\d+)\b", "".join(server.written()), re.MULTILINE)
    assert noted == [(made[entry], entry) for entry in "3 5 5 6 8 8".split()]


def test_a_line_about_a_refusal_has_the_time_of_the_refusal(server):
    def told():
        return [seconds_of(line) for line in server.written() if line.endswith(" was refused: not listed\n")]

    asked = []
    for _ in range(8):
        begins = time.time()
        # Each is of a session of its own: one turn may have several lines, and has one time.
        with server.session() as session:
            assert session.ask("up nobody") == "refused not listed"
        asked.append((begins - 0.001, time.time()))
        time.sleep(0.07)  # more than from one look to the next
    until(lambda: len(told()), 8)
    assert all(begins <= then <= ends for then, (begins, ends) in zip(told(), asked)), (told(), asked)


def test_the_line_about_the_end_has_its_time(server):
    before = time.time()
    server.stop()
    last = server.written()[-1]
    assert last.endswith("Z INFO  ended: stopped\n")
    assert before - 0.001 <= seconds_of(last) <= time.time()


# What is known after many entries.

@pytest.mark.timeout(600)
@pytest.mark.parametrize("options", [("--quiet",), ()], ids=["without a log", "with a log"])
def test_the_times_of_the_newest_change_and_of_the_newest_report_are_known_after_70000_entries(start, options):
    server = start(*options, script=f"catalogue db api m -\n{TWO}register m manual\nregister - manual\n")

    def stands():
        """Of each of the two services the newest change of its status, and its newest report."""
        return [(row["since"], row["reported"]) for row in rows(server)[:2]]

    for line in ("fail api", "pass api", "pass api", "expect db 1"):
        assert server.tell(*line.split()) == ("done", 0)
    until(lambda: server.stats()["expired"], 1)
    assert server.tell("expect", "db", "0") == ("done", 0)
    until(lambda: [[each and each["entry"] for each in row] for row in stands()], [[8, None], [5, 6]])
    before = stands()
    with server.session() as session:
        for _ in range(70):
            session.send("up m\n" * 1_000)
            assert session.answers.read(5_000) == b"done\n" * 1_000
    assert server.stats()["entries"] == 70_009
    assert stands() == before
    assert all(each is None or each["time"] for row in before for each in row)
