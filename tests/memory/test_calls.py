"""Calls and plain requests without memory: only the one that wanted it fails, and all else goes on."""
import contextlib

import pytest

from support.memory import ALL, MOST, REFUSED, next_told
from support.waiting import until
from support.wire import NOT_SERVING, OK, SERVING, call, exchange, get

pytestmark = [pytest.mark.preload, pytest.mark.timeout(300)]

CHECK = call("Check", "a")


@pytest.mark.parametrize("place, asked, status", [
    pytest.param("port", CHECK, 200, id="a Check"),
    pytest.param("port", call("Check", "none"), 200, id="a Check of a name that is not listed"),
    pytest.param("port", call("List", "a"), 200, id="a call that is refused"),
    pytest.param("port", get("/"), 405, id="a request that is no call"),
    pytest.param("plain", get("/status/a"), 200, id="a request for a status"),
    pytest.param("plain", get("/status/c"), 503, id="a request for one that is down"),
    pytest.param("plain", get("/services"), 200, id="a request for all services"),
    pytest.param("plain", get("/"), 200, id="a request for the page"),
    pytest.param("plain", get("/none"), 404, id="a request for what is not there"),
])
def test_without_memory_a_client_is_told_nothing_and_the_next_one_is_answered_as_ever(memory, server, place, asked, status):
    port = getattr(server, place)

    def act(refused):
        with refused:
            return exchange(port, asked)

    right = exchange(port, asked)
    assert right.startswith(b"HTTP/1.1 %d " % status)
    memory.in_turn(act, right, lambda found: found == b"")


def test_without_memory_who_asks_for_the_metrics_is_told_nothing_and_the_next_one_is_answered_as_ever(memory, server):
    def act(refused):
        with refused:
            found = exchange(server.plain, get("/metrics"))
        return [line for line in found.split(b"\n") if line.startswith((b"healthd_service_status{", b"healthd_entries"))]

    memory.in_turn(act, act(memory.refused(MOST)), lambda found: found == [])


def test_while_there_is_no_memory_each_call_and_each_line_fails_alone_and_then_all_goes_on(memory, server, session):
    with contextlib.closing(server.watch()) as watch, server.session() as idle:
        first, _ = next_told(watch), idle.ask("check a")
        with memory.refused(0, ALL):
            answers = {exchange(port, asked) for port, asked in ((server.port, CHECK), (server.plain, get("/status/a"))) for _ in range(50)}
            lines = {session.ask(line) for line in ("down a", "list", "check a")}
        assert answers == {b""}
        assert lines == {REFUSED}
        assert exchange(server.port, CHECK).endswith(OK)
        assert idle.ask("check a") == "serving"
        session.ask("down a")
        # The Watch that was there is told what is changed now.
        assert (first, next_told(watch)) == (SERVING, NOT_SERVING)
    until(lambda: [server.stats()[name] for name in ("connections", "watches")], [0, 0])
