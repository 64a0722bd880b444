"""What sessions say and are answered, line by line, beside Watches."""
import os
import re
import time
from types import SimpleNamespace

import pytest

from support.waiting import until
from support.wire import OK, call

SCRIPT = "catalogue a b -\nmax 10000\nregister a manual\nregister - manual\n"

# Each kind of line. Some are bytes, with their end.
ROWS = [
    ("down a", "done"), ("list", "a=not_serving b=absent -=serving"), ("up a\r", "done"), ("\n\r\nregister b manual", "done"),
    ("check b", "serving"), ("retire b", "done"), ("check b", "not found"), ("up b", "missing"), ("up zz", "refused not listed"),
    ("open a", "bad line"), (b"up \xff\n", "bad line"), ("expect b 5", "missing"), ("why b", "absent: retired by entry 5"),
    ("why zz", "not found"), ("status zz", "not found"), ("entry 7", "none yet"), ("entry 4294967295", "none yet"),
    *((line, "bad line") for line in ("why", "why a b", "status", "status a b", "entry", "entry x", "entry 4294967296", "entry 1 2")),
    # the longest line
    ("x" * 1_024, "bad line"),
]
COUNTED = "entries 7 kept 7 connections 1 watches 1 sessions 2 calls 2 given_up 0 behind 0 gone 1 expired 0 left 9993 writable 1"

# A place where findings are reported, and nothing else is changed: lines, their answers, and what a Watch of `a` is told of each. `board` has
# five entries, and SERVING at the first of two names.
REPORTS = [
    ("check a", "serving", []), ("fail a", "done", [2]), ("fail a", "done", []), ("pass a", "done", [1]), ("pass -", "missing", []),
    ("down a", "not allowed", []), ("register - threshold 1", "not allowed", []), ("retire a", "not allowed", []),
    ("shutdown", "not allowed", []), ("resume", "not allowed", []), ("stop", "not allowed", []),
    ("fail zz", "refused not listed", []), ("up a", "not allowed", []), ("up zz", "not allowed", []), ("expect a 5", "not allowed", []),
    ("expect a 0", "not allowed", []), ("expect zz 5", "not allowed", []), ("expect", "not allowed", []),
    ("register - threshold 0", "not allowed", []), ("register - threshold", "not allowed", []), ("no word", "not allowed", []),
    (b"\xff\n", "not allowed", []),
    ("list", "a=serving -=absent", []), ("board", str((5 << 32) + 1), []), ("why a", "serving", []),
    ("status -", "since - - reported - - expected - absent: never registered", []), ("entry 5", "none yet", []),
]
BOTH = "entries 5 kept 5 connections 1 watches 1 sessions 1 calls 0 given_up 0 behind 0 gone 0 expired 0 left 5 writable 1"
DEPENDING = "catalogue a -\nmax 100\nregister a manual\nregister - depends a\n"


@pytest.fixture
def beside(start):
    """A session that has said each kind of line, beside a Watch, a session that says nothing, and a client that has left in the middle of its
    request. A Check was answered before."""
    server = start("--threads", "2", script=SCRIPT)
    assert server.check().endswith(OK)
    with server.connect() as leaving:
        leaving.sendall(call("Check", "a")[:20])
    watch = server.watch()
    assert watch.next() == 1
    with server.session() as silent, server.session() as session:
        answers = [session.ask(line) for line, _ in ROWS]
        yield SimpleNamespace(server=server, watch=watch, silent=silent, session=session, answers=answers)
    watch.close()


@pytest.fixture
def server(start):
    return start("--threads", "2", script=SCRIPT)


@pytest.fixture
def reported(start, folder):
    """A session at a report place that has said its lines, beside a Watch and a session at the control place."""
    server = start("--threads", "2", "--report", f"{folder}/report", script="catalogue a -\nmax 10\nregister a threshold 1\n")
    watch = server.watch()
    assert watch.next() == 1
    with server.session() as session, server.session(server.report) as reporter:
        found = [(line, reporter.ask(line), watch.told(len(statuses))) for line, _, statuses in REPORTS]
        yield SimpleNamespace(server=server, watch=watch, session=session, reporter=reporter, found=found)
    watch.close()


def test_each_kind_of_line_is_answered(beside):
    assert list(zip((line for line, _ in ROWS), beside.answers)) == ROWS


def test_a_session_is_told_what_is_counted(beside):
    until(lambda: beside.session.ask("stats"), COUNTED)


def test_a_watch_is_told_each_change_of_a_session(beside):
    assert beside.watch.told(2) == [2, 1]


def test_what_comes_after_stop_is_not_answered_and_is_no_entry(beside):
    assert beside.watch.told(2) == [2, 1]
    beside.session.send("stop\ndown a\n")
    assert beside.session.rest() == b"stopping\n"
    assert beside.watch.rest() == []
    assert beside.server.end() == (0, "journal 7")


def test_a_session_that_said_nothing_is_closed_at_the_end(beside):
    beside.session.send("stop\ndown a\n")
    assert beside.silent.rest() == b""
    assert beside.server.end() == (0, "journal 7")


def test_a_line_in_single_bytes_is_answered(server):
    with server.session() as session:
        for byte in b"down a\n":
            session.send(bytes([byte]))
        assert session.client.recv(100) == b"done\n"
    assert server.stats()["entries"] == 2 + 1


def test_lines_in_one_piece_are_answered_and_so_is_the_last_without_its_end(server):
    with server.session() as session:
        session.send("up a\ncheck a\ndown a\ncheck a\nup a\ncheck a")
        session.say_that_it_is_all()
        assert session.rest() == b"done\nserving\ndone\nnot serving\ndone\nserving\n"
    assert server.stats()["entries"] == 2 + 3


def test_lines_that_are_cut_at_their_ends_are_answered(server):
    with server.session() as session:
        for piece in (b"li", b"st\nche", b"ck a\r", b"\nlist\ncheck b\r"):
            session.send(piece)
            time.sleep(0.02)  # the server may read each piece by itself
        session.say_that_it_is_all()
        assert session.rest() == b"a=serving b=absent -=serving\nserving\na=serving b=absent -=serving\nnot found\n"
    assert server.stats()["entries"] == 2


def test_a_last_line_of_1_024_bytes_is_no_longer_than_a_line_may_be(server):
    with server.session() as session:
        session.send(b"x" * 1_024)
        session.say_that_it_is_all()
        assert session.rest() == b"bad line\n"
    assert server.stats()["entries"] == 2


def test_a_line_that_is_too_long_ends_its_session(server):
    with server.session() as session:
        session.send(b"x" * 1_025 + b"\ndown a\n")
        assert session.rest() == b"line too long\n"
    assert server.stats()["entries"] == 2


def test_a_thousand_lines_in_one_write_are_answered_each_with_no_byte_after_them(server):
    with server.session() as session:
        session.send(b"down a\nup a\n" * 500)
        assert session.answers.read(5 * 1_000) == b"done\n" * 1_000
        # Each change is an entry.
        assert server.stats()["entries"] == 2 + 1_000
        session.say_that_it_is_all()
        assert session.rest() == b""


def test_changes_and_stop_in_one_piece_are_answered_and_a_watch_is_told_them_before_its_end(start):
    server = start("--threads", "2", script=DEPENDING)
    # The whole server depends on the service that is changed.
    watch = server.watch("")
    assert watch.next() == 1
    with server.session() as session:
        session.send("down a\nup a\nlist\nstop\n")
        session.say_that_it_is_all()
        assert session.rest() == b"done\ndone\na=serving -=serving\nstopping\n"
    assert watch.rest() == [2, 1]
    assert server.end() == (0, "journal 4")
    assert not os.path.lexists(server.control)


def test_a_session_that_leaves_after_stop_ends_the_server(start):
    server = start(script=DEPENDING)
    with server.session() as session:
        session.send("stop\n")
    assert server.end() == (0, "journal 2")


def test_a_control_place_that_is_a_loopback_address_is_told_in_the_second_line(start):
    server = start(script=SCRIPT, control="127.0.0.1:0", starts=False)
    lines = [server.process.stdout.readline().strip() for _ in range(2)]
    server.control = lines[1].partition(" ")[2]
    assert re.fullmatch(r"control 127\.0\.0\.1:\d+", lines[1]), lines


def test_a_session_at_a_loopback_address_is_answered_and_closed_at_the_end(start):
    server = start(script=SCRIPT, control="127.0.0.1:0")
    with server.session() as session:
        assert session.ask("down a") == "done"
        assert server.tell("check", "a") == ("not serving", 0)
        assert session.ask("up a") == "done"
        assert session.ask("stop") == "stopping"
        assert session.rest() == b""
    assert server.end() == (0, "journal 4")


def test_who_reports_tells_findings_and_changes_nothing_else(reported):
    assert reported.found == REPORTS


def test_the_report_place_and_the_control_place_count_the_same(reported):
    until(lambda: reported.reporter.ask("stats"), BOTH)
    until(lambda: reported.session.ask("stats"), BOTH)


def test_who_reports_sees_what_is_changed_at_the_control_place(reported):
    assert reported.session.ask("fail a") == "done"
    assert reported.watch.next() == 2
    assert reported.reporter.ask("check a") == "not serving"


def test_who_reports_is_closed_at_the_end_and_the_entries_are_the_findings(reported):
    assert reported.session.ask("fail a") == "done"
    assert reported.watch.next() == 2
    assert reported.session.ask("stop") == "stopping"
    assert reported.reporter.rest() == b""
    assert reported.watch.rest() == []
    assert reported.server.end() == (0, "journal 6")
    assert not os.path.lexists(reported.server.report)
