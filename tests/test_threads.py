"""A thread that is refused at the start: a run that needs it, for a place for sessions or to watch over silence, ends and says so. One that
can do without it serves by the threads that it has.

The library refuse_thread.c, which is loaded before the program, refuses the thread of a number. A run makes these in this order: one to watch
over silence, one for the report place and one for the control place, and then those of its loops. Where SIGTERM is blocked, one that looks for
it comes before them."""
import os
import time

import pytest

from support.log import ENDED
from support.wire import SERVING, status

pytestmark = [pytest.mark.preload, pytest.mark.timed]

WATCH, REPORT, CONTROL, LOOPS = 1, 2, 3, (4, 5, 6)
BLOCKED, LOOK = ("env", "--block-signal=TERM"), 1
QUIET = "catalogue a -\nregister a manual\nregister - manual\n"
EXPECTING = "catalogue a -\nregister a threshold 2\nregister - manual\nexpect a 3600\n"
# A run waits for a thread in 5,000 naps of a millisecond. So this process waits for the run: where a nap takes longer, it does for both.
NAP, MOST_NAPS = 0.001, 12_000
TRIES = 5


@pytest.fixture
def report(folder):
    return f"{folder}/report"


@pytest.fixture
def start_without(start, compiled, report):
    """Starts a run of four loops that tells its places, and is refused the thread of this number."""
    def begin(number, *options, reports=False, script=QUIET, **how):
        if reports:
            options += ("--report", report)
        return start("--threads", "4", *options, script=script, env={"LD_PRELOAD": compiled("refuse_thread"), "THREAD": str(number)}, **how)
    return begin


def ends_without_it(server, begins):
    """It waits for the thread for about five seconds, and then ends: it may have begun to wait before this process saw that."""
    naps = 0
    while server.process.poll() is None and naps < MOST_NAPS:
        time.sleep(NAP)
        naps += 1
    longest = time.monotonic() - begins
    assert longest > 4.5 and server.process.poll() is not None, f"{naps} naps in {longest:.1f} s"
    assert server.end() == (1, "")
    assert server.said() == "healthd: too few threads\n"
    assert server.log() == ["INFO  ended: too few threads"]  # and no place


def case(name, number, **how):
    return pytest.param(number, how, id=name)


@pytest.mark.parametrize("number, how", [
    case("to watch over sessions", WATCH),
    case("to watch over what its script expects", WATCH, script=EXPECTING, control=False),
    case("to look for signals", LOOK, before=BLOCKED),
    case("to look for signals, without a control place", LOOK, script=EXPECTING, control=False, before=BLOCKED),
    case("for the report place", REPORT, reports=True),
    case("for the report place, which is the only one", REPORT, reports=True, control=False),
    case("for the control place", CONTROL),
    case("for the control place, beside a report place", CONTROL, reports=True),
])
def test_a_run_without_a_thread_that_it_needs_waits_for_it_and_ends_and_leaves_no_socket(start_without, report, number, how):
    begins = time.monotonic()
    server = start_without(number, **how)
    ends_without_it(server, begins)
    assert [path for path in (server.control, report) if path and os.path.exists(path)] == []


def test_a_run_that_ends_without_a_thread_leaves_no_socket_and_a_journal_that_the_next_one_goes_on_with(start, start_without, folder):
    begins = time.monotonic()
    server = start_without(CONTROL, "--journal", f"{folder}/journal")
    ends_without_it(server, begins)
    assert not os.path.exists(server.control)
    start("--journal", f"{folder}/journal", script=QUIET).stop()


@pytest.mark.parametrize("number, reports", [
    pytest.param(WATCH, False, id="to watch over sessions"),
    pytest.param(WATCH, True, id="to watch over sessions at two places"),
    pytest.param(REPORT, True, id="for the report place"),
])
def test_a_run_that_waits_for_a_thread_stops_when_it_is_told_to(start_without, within, number, reports):
    for _ in range(TRIES):
        begins = time.monotonic()
        server = start_without(number, reports=reports)
        told = server.tell("stop")
        if time.monotonic() - begins < 4.5:
            break
        # It may have been told too late, when it waited no more: once more.
        server.kill()
    else:
        pytest.fail(f"in none of {TRIES} tries it was told in time")
    assert told == ("stopping", 0)
    with within(3):
        assert server.end() == (0, "journal 2")
    assert server.said() == ""
    assert server.log() == [ENDED]  # and no place


def answers_calls(server):
    answers = [server.check() for _ in range(8)]
    assert all(status(SERVING) in answer for answer in answers), answers


@pytest.mark.parametrize("number, reports", [
    pytest.param(REPORT, False, id="for a report place that it does not have"),
    *(pytest.param(number, True, id=f"{number}, of its loops") for number in LOOPS),
    pytest.param(7, True, id="that is none of its own"),  # it lacks no thread
])
def test_a_run_that_can_do_without_a_thread_answers_calls_and_takes_sessions(start_without, number, reports):
    server = start_without(number, reports=reports)
    answers_calls(server)
    assert server.tell("check", "a") == ("serving", 0)
    server.stop()


@pytest.mark.parametrize("number", [pytest.param(WATCH, id="to watch over nothing"), pytest.param(CONTROL, id="for no control place")])
def test_a_run_without_a_control_place_that_can_do_without_a_thread_answers_calls(start_without, number):
    server = start_without(number, control=False)
    answers_calls(server)
    server.kill()
