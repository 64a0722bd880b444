"""Commands without memory: each ends with the status 1 and says why, or does what it would do. What it has printed until then is right.
The server that is asked has all memory."""
import re
import tempfile

import pytest

from support.command import ran
from support.lasting import lasting
from support.memory import MOST, OUT_OF_MEMORY, REFUSED, SETUP, state, stopped
from support.naming import command_line, rows

pytestmark = [pytest.mark.preload, pytest.mark.timeout(300)]

CONTROL, ASK, RUN = ("--control", "CONTROL"), ("ask", "--port", "PORT", "--name", "a"), ("run", "--listen", "127.0.0.1:0")
COMMANDS = [
    (("--help",), "", 0),
    (("nonsense",), "", 2),
    (("body", "0000000000", "=serving"), "", 0),
    (("replay",), "catalogue a -\nmax 9\nregister a treshold 2\n", 1),
    (RUN, "catalogue a -\nregister b manual\n", 1),
    (RUN, "catalogue a\n", 1),
    (("run", "--check"), SETUP, 0),
    (("run", "--check", "--journal", "JOURNAL"), SETUP, 0),
    (ASK, "", 0),
    ((*ASK, "--watch", "1"), "", 0),
    (("tell", *CONTROL, "check", "a"), "", 0),
    (("tell", *CONTROL), "check a\nlist\n", 0),
    (("status", *CONTROL), "", 0),
    (("status", *CONTROL, "--json"), "", 0),
    (("history", *CONTROL, "--last", "3"), "", 0),
    (("history", *CONTROL, "--json"), "", 0),
    (("journal", "JOURNAL"), "", 0),
    (("journal", "JOURNAL", "--json"), "", 0),
    (("observe", *CONTROL, "--once", "b=tcp://127.0.0.1:PORT"), "", 0),
]


@pytest.fixture(scope="module")
def journal(program):
    """A file with a history, which no server has open."""
    with tempfile.TemporaryDirectory(prefix="healthd-", dir="/tmp") as folder:
        path = f"{folder}/journal"
        with lasting(program, "--journal", path, script=SETUP) as server, server.session() as session:
            assert {session.ask(line) for line in ("fail b", "pass b") * 20} == {"done"}
        yield path


@pytest.fixture
def server(start):
    """One that has all memory."""
    return start(script=SETUP)


@pytest.fixture
def run(program, memory):
    """A command for which this memory is refused."""
    def run_without(refused, *words, given=""):
        with refused:
            return ran(program, *words, given=given, env=memory.env)
    return run_without


def is_refusal(command, found, right, place):
    """It was out of memory, after it has printed a part of what is right. A run may tell the line of its script, and a look that had none has
    failed. Where there is none to tell the server of a look, that is the status 1, and said."""
    status, printed, said = found
    return ((status, said) == (1, OUT_OF_MEMORY) and right.printed.startswith(printed)
            or command == "run" and (status, printed) == (1, "") and re.fullmatch("healthd: script line [2-6]: refused no memory\n", said)
            or command == "observe" and (status, printed) in ((3, "b fail: no address\n"), (3, "b fail: out of memory\n"))
            or command == "observe" and (status, printed) == (1, "b pass\n")
            and said in (f"healthd: looks not told to {place}: 1\n", f"healthd: {place}: out of memory\n"))


@pytest.mark.parametrize("words, given, status", rows(COMMANDS, lambda words, given, _: f"{command_line(words)} {given}".strip()))
def test_a_command_without_memory_says_so_or_does_what_it_would_do(memory, server, journal, run, words, given, status):
    places = {"CONTROL": server.control, "PORT": str(server.port), "JOURNAL": journal}
    words = [re.sub("CONTROL|PORT|JOURNAL", lambda name: places[name[0]], word) for word in words]

    def act(refused):
        return run(refused, *words, given=given)

    right = act(memory.refused(MOST))
    assert right.status == status
    memory.in_turn(act, right, lambda found: is_refusal(words[0], found, right, server.control))


def test_a_replay_goes_on_after_a_change_that_has_no_memory(memory, run):
    def act(refused):
        return run(refused, "replay", given=SETUP.replace("-\n", "-\nmax 6\n", 1) + "check a\nfail b\nfail b\nboard\n")

    def is_refused(found):
        status, printed, _ = found
        return status == 0 and f"{REFUSED}\n" in printed or is_refusal("replay", found, right, None)

    right = act(memory.refused(MOST))
    assert right.status == 0
    others = {printed for status, printed, _ in memory.in_turn(act, right, is_refused) if status == 0}
    lines = right.printed.count("\n")
    assert any(printed.startswith(f"{REFUSED}\ndone\n") and printed.count("\n") == lines for printed in others), others


def test_a_change_is_not_told_by_a_client_that_ran_out_of_memory_before(memory, server, run):
    with server.session() as session:
        session.ask("up a")
        before, printed = state(session)[0], []

        def act(refused):
            entries, _ = state(session)
            told = run(refused, "tell", "--control", server.control, "down", "a")
            printed.append(told.printed)
            return (*told, state(session)[0] - entries)

        memory.in_turn(act, (0, "done\n", "", 1), lambda found: found == (1, "", OUT_OF_MEMORY, 0))
        # None is made later either.
        assert state(session)[0] - before == printed.count("done\n")


def test_stop_stops_a_server_or_says_that_there_was_no_memory_for_it(memory, start, run):
    def act(refused):
        server = start("--quiet", "--threads", "1", script=SETUP)
        return (*run(refused, "stop", "--control", server.control), stopped(server)[0])

    memory.in_turn(act, (0, "stopping\n", "", 0), lambda found: found in ((1, "", OUT_OF_MEMORY, 0), (1, "stopping\n", OUT_OF_MEMORY, 0)))
