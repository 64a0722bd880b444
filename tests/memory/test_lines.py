"""Lines of a session without memory: one that wanted it changes nothing and says so, and the session goes on."""
import contextlib

import pytest

from support.memory import ALL, MOST, REFUSED, SETUP, changes_or_not, state
from support.session import numbers
from support.waiting import until

pytestmark = [pytest.mark.preload, pytest.mark.timeout(300)]

NOT_STORED = "refused not stored"


def settle(server, session):
    """Waits until `stats` counts all calls that have ended: a loop tells its numbers at the end of each round. So those of them are told at the
    latest where it tells of the only Watch, which comes after them and leaves."""
    def open_now():
        stats = numbers(session.ask("stats"))
        return stats["connections"], stats["watches"]
    with contextlib.closing(server.watch()):
        until(open_now, (1, 1))
    until(open_now, (0, 0))


@pytest.mark.parametrize("line", ["check a", "list", "why a", "why c", "status b", "entry 1", "board", "stay", "up none", "stats"])
def test_a_line_that_asks_is_answered_or_refused(memory, server, session, line):
    settle(server, session)

    def act(refused):
        with refused:
            return session.ask(line)

    memory.in_turn(act, session.ask(line), lambda found: found == REFUSED)


@pytest.mark.parametrize("line, back", [
    ("up a", "down a"), ("down a", "up a"), ("fail b", "pass b"), ("pass b", "fail b"), ("retire d", "register d depends a b"),
    ("register d threshold 2 3 unknown", "retire d"), ("expect b 60", "expect b 0"), ("resume", "shutdown"), ("shutdown", "resume"),
])
def test_a_change_that_is_refused_leaves_the_history_and_all_services_as_they_were(memory, session, line, back):
    changes_or_not(memory, session, line, back)


def made_without(memory, session, line):
    """Makes a change with no more memory than it needs, and returns how many requests it took."""
    before = state(session)
    for number in range(MOST):
        with memory.refused(number, ALL):
            answer = session.ask(line)
        now = state(session)
        if answer != REFUSED:
            assert (answer, now[0]) == ("done", before[0] + 1)
            return number
        assert now == before
    return pytest.fail(f"with {MOST} requests for memory it is refused")


def test_each_of_many_changes_is_made_once_it_has_its_memory(start_serving, memory):
    # Some have a list grow. It is refused that it grows, too, and the next one finds as much room as before.
    with start_serving("--quiet", "--connections", "40", "--watches", "40").session() as session:
        tries = [made_without(memory, session, ("down a", "up a")[place % 2]) for place in range(300)]
    assert max(tries) > min(tries) > 0


def test_a_change_that_could_not_be_stored_for_want_of_memory_is_not_made_and_the_next_run_has_those_that_were(start_serving, start, memory, folder):
    journal = ("--journal", f"{folder}/journal")
    server = start_serving(*journal)
    with server.session() as session:
        changes_or_not(memory, session, "fail b", "pass b", (REFUSED, NOT_STORED))
        assert session.ask("fail b") == "done"
        left = state(session)
    server.stop()
    with start(*journal, script=SETUP).session() as session:
        assert state(session) == left
