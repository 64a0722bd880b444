"""Starts without memory: a server begins to serve, or says that there was no memory for it."""
import contextlib
import re
import signal

import pytest

from support.command import ran
from support.memory import LOOPS, OUT_OF_MEMORY, SETUP, stopped
from support.process import polling
from support.waiting import until

pytestmark = [pytest.mark.preload, pytest.mark.timeout(300)]

UNREGISTERED = "healthd: d is in the catalogue, but not registered\n"
SAID = re.compile("healthd: (script line [2-6]: refused no memory|too few threads|out of memory)\n")


@contextlib.contextmanager
def blocked(signals):
    """What is started meanwhile has these signals blocked."""
    before = signal.pthread_sigmask(signal.SIG_BLOCK, signals)
    try:
        yield
    finally:
        signal.pthread_sigmask(signal.SIG_SETMASK, before)


@pytest.fixture
def starts(start, memory):
    """Starts servers with each request for memory refused in turn, and stops them. What is refused is returned."""
    def act(refused, *options, signals):
        with refused:
            with blocked(signals):
                server = start("--plain", "127.0.0.1:0", "--threads", "1", "--quiet", *options, script=SETUP + "expect b 3600\n", env=memory.env,
                               starts=False)
            places = [server.process.stdout.readline().partition(" ")[0] for _ in range(3)]
            if all(places):
                until(lambda: server.process.poll() is not None or polling(server.process) == LOOPS, True, 60)
        status, printed = stopped(server)
        server.close()
        return places, status, printed, "".join(server.written()).removeprefix(UNREGISTERED)

    def start_all(*options, signals=()):
        return memory.in_turn(lambda refused: act(refused, *options, signals=signals), (["listening", "plain", "control"], 0, "journal 5", ""),
                              lambda found: found[1:3] == (1, "") and SAID.fullmatch(found[3]))
    return start_all


@pytest.mark.parametrize("signals", [(), (signal.SIGTERM, signal.SIGINT)], ids=["as it is", "with the signals blocked that stop it"])
def test_a_server_starts_or_says_that_it_has_no_memory(starts, signals):
    starts(signals=signals)


def test_a_server_with_a_journal_does_so_too_and_also_where_it_has_told_its_places(starts, folder):
    assert [places for places, *_ in starts("--journal", f"{folder}/journal") if all(places)]


@pytest.mark.parametrize("options", [(), ("--journal", "JOURNAL")], ids=["without a journal", "with a journal"])
def test_where_memory_runs_out_before_a_line_expect_that_is_refused_that_is_said_and_not_the_line(program, memory, folder, options):
    came, of_line = [], (1, "", "healthd: script line 2: refused no memory\n")

    def act(refused):
        with refused:
            came.append(ran(program, "run", "--listen", "127.0.0.1:0", *(word.replace("JOURNAL", f"{folder}/journal") for word in options),
                            given="catalogue a -\nregister a manual\nexpect a 5\n", env=memory.env))
        return came[-1]

    memory.in_turn(act, (1, "", "healthd: script line 3: wrong kind\n"), lambda found: found in ((1, "", OUT_OF_MEMORY), of_line))
    # The hall is made right before its first change.
    first = came.index(of_line)
    assert first and came[first - 1].said == OUT_OF_MEMORY, came[:first + 1][-5:]
