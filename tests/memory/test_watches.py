"""Watches without memory: one that wanted it ends. What it was told until then is right, and another one is told all."""
import contextlib

import pytest

from support.memory import ALL, FIRST, MOST, REFUSED, first_told, next_told
from support.session import numbers
from support.waiting import until
from support.wire import NOT_SERVING, SERVING

pytestmark = [pytest.mark.preload, pytest.mark.timeout(300)]

WATCHES = 40


def opened(server, refused):
    """A connection that was made without this memory, and what the Watch on it is told first."""
    with refused:
        client = server.connect()
        return client, first_told(client)


def test_a_watch_that_is_opened_without_memory_is_told_its_first_status_or_nothing(memory, server):
    def act(refused):
        client, first = opened(server, refused)
        client.close()
        return first

    memory.in_turn(act, FIRST, lambda found: found == b"")


def test_a_watch_to_which_a_change_is_told_without_memory_ends_or_is_told_it(memory, server, session):
    def act(refused):
        with contextlib.closing(server.watch()) as watch:
            first = next_told(watch)
            with refused:
                answer = session.ask("down a")
                second = next_told(watch) if answer != REFUSED else answer
        if answer != REFUSED:
            session.ask("up a")
        return first, second

    memory.in_turn(act, (SERVING, NOT_SERVING), lambda found: found[0] == SERVING and found[1] in (b"", REFUSED))


def open_without(memory, server):
    """Opens a Watch with no more memory than it needs: how many requests it took, and its connection."""
    for number in range(MOST):
        client, first = opened(server, memory.refused(number, ALL))
        if first != b"":
            assert first == FIRST
            return number, client
        client.close()
    pytest.fail(f"with {MOST} requests for memory it is told nothing")


def test_each_of_many_watches_is_opened_once_it_has_its_memory_and_so_is_a_session_beside_them(start_serving, memory):
    # Some connections have a list grow. It is refused that it grows, too, and the next one finds as much room as before.
    server = start_serving("--quiet", "--connections", str(WATCHES), "--watches", str(WATCHES))
    with contextlib.ExitStack() as clients, server.session() as session:
        assert session.ask("check a") == "serving"  # it is taken in
        tries = []
        for _ in range(WATCHES):
            number, client = open_without(memory, server)
            tries.append(number)
            clients.enter_context(client)
        assert max(tries) > min(tries) > 0
        until(lambda: [server.stats()[name] for name in ("connections", "watches")], [WATCHES, WATCHES])

        def act(refused):
            with refused, server.session() as opened, contextlib.suppress(ConnectionError):
                return opened.ask("check a")
            return ""

        for _ in range(4):
            memory.in_turn(act, "serving", lambda found: found in ("", REFUSED))
        until(lambda: numbers(session.ask("stats"))["sessions"], 1)
