"""Sixteen sessions of a place, and one more; and what another user may say at the place for reports."""
import contextlib
import grp
import os
import socket
import struct
import threading
import time

import pytest

from support.process import freeze, thaw
from support.waiting import until

pytestmark = pytest.mark.timed

QUIET = 1.3  # more than the second that nobody is closed within
TRIES = 5  # because a pause of the machine makes each session quiet
NOBODY_LEFT = ("healthd: too many sessions", 1)


@pytest.fixture
def server(start):
    return start("--threads", "2")


@contextlib.contextmanager
def sessions_of(server, count, *places):
    """So many sessions of each place, each of which has said a line. After them there is room again."""
    with contextlib.ExitStack() as opened:
        sessions = [opened.enter_context(server.session(place)) for place in places or (server.control,) for _ in range(count)]
        assert answers(sessions) == ["serving"] * len(sessions)
        yield sessions
    for place in places or (server.control,):
        until(lambda: " sessions 1 " in server.tell("stats", place=place)[0], True)


def answers(sessions):
    return [session.ask("check a") for session in sessions]


def turned_away(server, place):
    """What one more is told, which says a line and does not leave."""
    with server.session(place, 5) as other:
        with contextlib.suppress(BrokenPipeError):
            other.send("check a\n")
        try:
            return other.rest()
        except TimeoutError:
            return b"it is held"


def test_a_seventeenth_gets_in_within_a_second_and_the_one_that_was_quiet_for_longest_is_closed_for_it(server, within):
    with sessions_of(server, 16) as sessions:
        quiet = sessions.pop(3)
        for session in sessions:
            time.sleep(0.01)  # so that each of them has spoken later than the quiet one
            session.ask("board")
        time.sleep(1.1)  # nothing is said for more than a second
        for session in sessions:
            session.ask("board")
        with within(1):
            assert server.tell("list") == ("a=serving db=serving -=serving", 0)
        assert quiet.rest() == b""
        assert answers(sessions) == ["serving"] * 15


def test_where_all_are_quiet_for_more_than_a_second_the_quietest_is_closed_for_one_more_and_no_other(server):
    with sessions_of(server, 16) as sessions:
        sessions[0].ask("check a")
        time.sleep(QUIET)  # nothing is said
        with server.session() as one_more:
            assert one_more.ask("check a") == "serving"
            assert sessions.pop(1).rest() == b""
            assert answers([*sessions, one_more]) == ["serving"] * 16


def test_one_that_said_something_within_a_second_is_not_closed_for_one_more(start):
    for _ in range(TRIES):
        server = start("--threads", "2")
        with sessions_of(server, 16) as sessions:
            begins = time.monotonic()
            assert answers(sessions) == ["serving"] * 16
            time.sleep(0.6)  # nothing is said, for less than a second
            told = server.tell("list")
            seconds = time.monotonic() - begins
        if seconds < 1:
            break
    else:
        pytest.fail(f"the last of {TRIES} tries took {seconds:.1f} s")
    assert told == NOBODY_LEFT


def test_where_there_is_room_nobody_is_closed_however_quiet(server):
    with sessions_of(server, 2) as sessions:
        time.sleep(QUIET)  # nothing is said
        assert server.tell("check", "a") == ("serving", 0)
        assert answers(sessions) == ["serving"] * 2


def test_tell_gives_up_where_the_server_is_silent(server, within):
    freeze(server.process)
    try:
        with within(2.5):
            assert server.tell("--timeout", "1", "list") == ("healthd: timed out, the change may still be made", 1)
    finally:
        thaw(server.process)


# What has ended gives its place back once.

def leaves(session):
    assert session.ask("check a") == "serving"


def says_too_much(session):
    assert session.ask("x" * 1_025) == "line too long"
    assert session.rest() == b""


def is_reset(session):
    session.send("check ")
    session.client.setsockopt(socket.SOL_SOCKET, socket.SO_LINGER, struct.pack("ii", 1, 0))


@pytest.mark.parametrize("ends", [leaves, says_too_much, is_reset])
def test_after_500_have_ended_sixteen_are_held_and_one_more_is_turned_away(server, ends):
    with server.session() as beside:
        for _ in range(500):
            with server.session() as session:
                ends(session)
            # This is answered once the server has seen that the other has ended.
            assert beside.ask("check a") == "serving"
    until(lambda: " sessions 1 " in server.tell("stats")[0], True)
    for _ in range(TRIES):
        begins = time.monotonic()
        with sessions_of(server, 16):
            told = turned_away(server, server.control)
            seconds = time.monotonic() - begins
        # One that was quiet for a second would have been closed for one more.
        if seconds < 1:
            break
    else:
        pytest.fail(f"the last of {TRIES} tries took {seconds:.1f} s")
    assert told == b"too many sessions\n"


def test_beside_sixteen_that_pour_lines_one_more_is_told_that_it_is_too_many(server):
    ends = threading.Event()

    def pour(session):
        while not ends.is_set():
            session.ask_many("down a\nup a", 20)
            for _ in range(20):
                session.answer()

    with sessions_of(server, 16) as sessions:
        pouring = [threading.Thread(target=pour, args=(session,), daemon=True) for session in sessions]
        try:
            for thread in pouring:
                thread.start()
            time.sleep(1.5)  # none of them is quiet for a second, which would make room
            assert server.tell("list") == NOBODY_LEFT
        finally:
            ends.set()
            for thread in pouring:
                thread.join()


class Talk:
    """Each session says a line in its turn. It is taken down how long it was quiet before, also where it is not answered."""

    def __init__(self, sessions):
        self.sessions, self.answers, self.quiet, self.ends = sessions, {"serving"}, [], threading.Event()
        self.thread = threading.Thread(target=self.talk, daemon=True)

    def __enter__(self):
        self.thread.start()
        return self

    def __exit__(self, *_):
        self.ends.set()
        self.thread.join()

    def talk(self):
        spoke = [time.monotonic()] * len(self.sessions)
        while not self.ends.is_set() and self.answers == {"serving"}:
            for place, session in enumerate(self.sessions):
                self.quiet.append(time.monotonic() - spoke[place])
                try:
                    self.answers.add(session.ask("check a"))
                except OSError as fault:
                    self.answers.add(str(fault))
                self.quiet.append(time.monotonic() - spoke[place])
                spoke[place] = time.monotonic()


@pytest.fixture
def at_two_places(start, folder):
    """A server with a place for reports."""
    return start("--threads", "2", "--report", f"{folder}/report")


def test_beside_sixteen_that_talk_without_pause_at_each_place_one_more_is_turned_away_at_each(at_two_places):
    server = at_two_places
    for _ in range(TRIES):
        with sessions_of(server, 16, server.control, server.report) as sessions:
            with Talk(sessions) as talk:
                told = []
                for _ in range(4):
                    told += [turned_away(server, server.control), turned_away(server, server.report)]
                    time.sleep(0.5)  # those that talk are not closed meanwhile
        # One that was quiet for a second, because the machine paused, may have been closed for one more.
        if max(talk.quiet, default=0) < 0.9:
            break
    else:
        pytest.fail(f"one of them was quiet for {max(talk.quiet):.1f} s in the last of {TRIES} tries")
    assert told == [b"too many sessions\n"] * 8
    assert talk.answers == {"serving"}


def test_once_one_has_left_a_place_there_is_room_at_it_and_none_at_the_other(at_two_places):
    server = at_two_places
    for _ in range(TRIES):
        with sessions_of(server, 16, server.control, server.report) as sessions:
            begins = time.monotonic()
            sessions.pop().close()
            # Its place has room before a second is over, which would make room at both.
            until(lambda: server.tell("check", "a", place=server.report), ("serving", 0))
            assert answers(sessions[:16]) == ["serving"] * 16
            told = turned_away(server, server.control)
            seconds = time.monotonic() - begins
        if seconds < 1:
            break
    else:
        pytest.fail(f"the last of {TRIES} tries took {seconds:.1f} s")
    assert told == b"too many sessions\n"


def test_the_sixteen_of_one_place_take_none_of_the_other_s(at_two_places):
    with sessions_of(at_two_places, 16, at_two_places.report, at_two_places.control) as sessions:
        assert answers(sessions) == ["serving"] * 32


def test_a_word_that_is_no_line_is_not_allowed_at_the_report_place(at_two_places):
    assert at_two_places.tell("foo", place=at_two_places.report) == ("not allowed", 3)


def test_a_word_that_is_no_line_is_a_bad_line_at_the_control_place(at_two_places):
    assert at_two_places.tell("foo") == ("bad line", 3)


# A place for those who report, which another user of the server's group may open.

@pytest.fixture
def group():
    return grp.getgrnam("daemon").gr_gid


@pytest.fixture
def report(folder, group):
    """A place in a folder of that group."""
    os.mkdir(f"{folder}/reports")
    os.chown(f"{folder}/reports", 0, group)
    os.chmod(f"{folder}/reports", 0o771)
    return f"{folder}/reports/report"


@pytest.fixture
def start_in_group(start, report, group):
    return lambda **how: start("--report", report, before=("setpriv", f"--regid={group}", "--clear-groups"), **how)


@pytest.fixture
def as_other(program, group):
    """What another user of the group is answered."""
    def tell(place, *words):
        ran = program.run("tell", "--control", place, *words, before=("setpriv", "--reuid=nobody", f"--regid={group}", "--clear-groups"))
        return (ran.stdout + ran.stderr).strip(), ran.returncode
    return tell


@pytest.mark.root
def test_the_control_place_is_told_and_then_the_report_place(start_in_group, report):
    server = start_in_group(starts=False)
    lines = [server.process.stdout.readline() for _ in range(3)]
    assert lines[0].startswith("listening ") and lines[1:] == [f"control {server.control}\n", f"report {report}\n"]


@pytest.mark.root
def test_the_report_place_s_file_is_its_group_s_too_and_is_taken_away_at_the_end(start_in_group, report, group):
    server = start_in_group()
    assert (os.stat(report).st_gid, os.stat(report).st_mode & 0o777) == (group, 0o660)
    server.stop()
    assert not os.path.exists(report)


@pytest.mark.root
def test_the_control_place_s_file_is_its_owner_s_alone(start_in_group):
    assert os.stat(start_in_group().control).st_mode & 0o777 == 0o600


@pytest.mark.root
def test_another_user_of_the_group_reports_and_may_ask(start_in_group, report, as_other):
    start_in_group()
    assert [as_other(report, "fail", "db") for _ in range(2)] == [("done", 0)] * 2
    assert as_other(report, "list") == ("a=serving db=not_serving -=not_serving", 0)


@pytest.mark.root
@pytest.mark.parametrize("line", ["stop", "down a", "register db manual", "retire db", "shutdown", "resume"])
def test_another_user_of_the_group_may_do_no_more_than_report(start_in_group, report, as_other, line):
    server = start_in_group()
    assert as_other(report, *line.split()) == ("not allowed", 3)
    assert server.tell("list") == ("a=serving db=serving -=serving", 0)


@pytest.mark.root
def test_another_user_of_the_group_gets_in_at_no_other_place(start_in_group, as_other):
    assert as_other(start_in_group().control, "list")[1] == 1
