"""What lasts is told once a minute."""
import contextlib
import os
import tempfile
from types import SimpleNamespace

import pytest

from support.lasting import lasting
from support.log import seconds_of
from support.process import UNENDED_BY_LIMITS, without_room
from support.waiting import until

pytestmark = [pytest.mark.timed, pytest.mark.timeout(300)]

MINUTE = 60
SESSIONS = 16
# A service is expected whose fails find no room in the history.
FULL = "catalogue db -\nmax 2\nregister db threshold 1\nregister - manual\nexpect db 1\n"
WRITTEN_AGAIN = "INFO  journal written again"


@contextlib.contextmanager
def stuck(program, journal):
    """A server whose journal takes nothing until its disk has room again, while a fail is asked for each second. The log's file is shorter."""
    with lasting(program, "--journal", journal, before=UNENDED_BY_LIMITS) as server, contextlib.ExitStack() as full_disk:
        with server.session() as session:
            assert session.ask_many("up a", 600) == ["done"] * 600
        full_disk.enter_context(without_room(server.process, journal))
        assert server.tell("expect", "db", "1") == ("done", 0)
        until(lambda: server.stats()["writable"], 0, 20)
        yield server, full_disk


@pytest.fixture(scope="module")
def servers(program):
    """They have their minute at the same time."""
    with contextlib.ExitStack() as opened:
        folder = opened.enter_context(tempfile.TemporaryDirectory(prefix="healthd-", dir="/tmp"))
        bounded = opened.enter_context(lasting(program, "--connections", "2", "--watches", "2", script=FULL))
        for _ in range(2):
            opened.enter_context(contextlib.closing(bounded.watch("")))
        for _ in range(SESSIONS):
            opened.enter_context(bounded.session())
        stored, full_disk = opened.enter_context(stuck(program, f"{folder}/stored"))
        moved, _ = opened.enter_context(stuck(program, f"{folder}/moved"))
        # Its file is moved while it is opened anew each second.
        os.rename(f"{folder}/moved", f"{folder}/away")
        yield SimpleNamespace(bounded=bounded, stored=stored, full_disk=full_disk, moved=moved)


def is_told_each_minute(within, server, line):
    def told_at():
        return [seconds_of(text) for text in server.written() if text.endswith(f"Z {line}\n")][:2]

    until(lambda: len(told_at()), 2, 2 * MINUTE)
    first, second = told_at()
    assert second - first > MINUTE - 0.1
    within.took(second - first, MINUTE + 20)


@pytest.mark.parametrize("line", [
    "WARN  all 2 connections are taken", "WARN  all 2 watches are taken", f"WARN  all {SESSIONS} sessions are taken",
    "WARN  a change of expiry was refused: full",
])
def test_what_stays_full_is_told_once_a_minute_and_a_full_history_once_where_no_entry_comes(servers, within, line):
    is_told_each_minute(within, servers.bounded, line)
    assert servers.bounded.log().count("WARN  all 2 entries are made") == 1


def test_a_journal_that_takes_nothing_is_told_once_a_minute_and_when_it_is_written_again_once(servers, within):
    is_told_each_minute(within, servers.stored, "WARN  journal not written: file too large")
    servers.full_disk.close()
    until(lambda: servers.stored.log().count(WRITTEN_AGAIN), 1, 20)
    servers.stored.stop()
    assert servers.stored.log().count(WRITTEN_AGAIN) == 1


def test_a_journal_whose_file_was_moved_meanwhile_is_told_so_a_minute_later(servers):
    until(lambda: servers.moved.log().count("WARN  journal not written: its file was moved"), 1, 2 * MINUTE)
