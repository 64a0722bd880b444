"""SIGTERM and SIGINT end a server in good order where it was started with them blocked, also as process 1 of a container."""
import ctypes
import os
import signal
import subprocess
import time

import pytest

from support.process import processor_seconds, without_descriptors
from support.session import numbers
from support.waiting import until
from support.wire import OK, SERVING, all_of, call, rest_of

pytestmark = pytest.mark.timed

BLOCKED = ("env", "--block-signal=TERM", "--block-signal=INT")
STOPPED = (0, "journal 3")
CHECK = call("Check", "a")
# It looks for signals each 200 ms: so many seconds are several looks.
LOOKS = 0.6

both = pytest.mark.parametrize("number", [signal.SIGTERM, signal.SIGINT], ids=lambda number: number.name)


def blocking(number):
    return "env", f"--block-signal={number.name.removeprefix('SIG')}"


@pytest.fixture
def blocked(start):
    return start(before=BLOCKED)


# How a signal ends a server.

@both
def test_a_server_that_was_started_with_a_signal_blocked_ends_by_it_as_by_stop_and_takes_the_file_of_its_control_place_away(blocked, within, number):
    with within(1):
        assert blocked.kill(number) == STOPPED
    assert sorted(os.listdir(blocked.folder)) == ["err", "script"]


@both
def test_a_server_that_was_started_without_a_signal_blocked_ends_at_once_by_it(server, number):
    assert server.kill(number) == (-number, "")


@both
def test_where_one_of_them_alone_is_blocked_it_ends_the_server_in_good_order(start, number):
    assert start(before=blocking(number)).kill(number) == STOPPED


@pytest.mark.parametrize("number, other", [
    pytest.param(signal.SIGTERM, signal.SIGINT, id="SIGTERM is blocked"), pytest.param(signal.SIGINT, signal.SIGTERM, id="SIGINT is blocked"),
])
def test_where_one_of_them_alone_is_blocked_the_other_ends_the_server_at_once(start, number, other):
    assert start(before=blocking(number)).kill(other) == (-other, "")


def test_another_signal_that_is_blocked_ends_nothing(start):
    server = start(before=("env", "--block-signal=USR1", "--block-signal=TERM"))
    os.kill(server.process.pid, signal.SIGUSR1)
    os.kill(server.process.pid, signal.SIGCHLD)
    time.sleep(LOOKS)  # it does not end
    assert [server.check().endswith(OK) for _ in range(3)] == [True] * 3
    assert server.process.poll() is None


def test_a_signal_that_is_sent_to_the_first_thread_alone_ends_the_server(blocked):
    ctypes.CDLL(None).tgkill(blocked.process.pid, blocked.process.pid, signal.SIGTERM)
    assert blocked.end() == STOPPED


# What the look for signals takes, and where the system does not tell.

def test_the_look_for_signals_takes_next_to_nothing_of_a_processor(start):
    server = start("--quiet", before=BLOCKED)
    before = processor_seconds(server.process)
    time.sleep(2)  # nothing is done
    assert processor_seconds(server.process) - before < 0.2


def test_a_look_that_fails_for_want_of_a_descriptor_ends_nothing_and_sigterm_ends_the_server_once_there_are_some(start):
    server = start("--quiet", before=BLOCKED)
    with server.session() as session:
        # It is taken in beside the looks.
        assert session.ask("check a") == "serving"
        with without_descriptors(server.process):
            time.sleep(LOOKS)  # it does not end
            assert session.ask("check a") == "serving"
            assert server.process.poll() is None
    assert server.kill(signal.SIGTERM) == STOPPED


def test_sigterm_ends_a_server_of_so_many_groups_that_what_the_system_tells_of_it_is_long_before_its_signals(start):
    many = ("setpriv", f"--groups={','.join(map(str, range(100_000, 102_000)))}")
    if subprocess.run([*many, "true"], capture_output=True, check=False).returncode != 0:
        pytest.skip("no groups can be given here")
    server = start(before=(*many, *blocking(signal.SIGTERM)))
    with open(f"/proc/{server.process.pid}/status", encoding="utf-8") as file:
        assert file.read().find("SigBlk:") > 3 * 4_096
    assert server.kill(signal.SIGTERM) == STOPPED


# What is open by then.

@pytest.fixture
def half(connected):
    """Sends a half of a Check to a server."""
    return lambda server: connected(server, 1, CHECK[:40])[0]


def is_answered(client):
    """A Check that was half sent is answered once it is whole."""
    client.sendall(CHECK[40:])
    assert rest_of(client).endswith(OK)


def are_told(watches):
    """Each Watch has been told its first status."""
    assert [watch.next() for watch in watches] == [SERVING] * len(watches)


def are_ended(watches):
    """Each Watch ends with trailers, and nothing before."""
    assert [watch.rest() for watch in watches] == [[]] * len(watches)


def test_a_signal_ends_each_watch_with_trailers_and_closes_what_is_silent_and_a_half_sent_check_is_answered(start, connected, watching, half):
    server = start("--threads", "3", before=BLOCKED)
    begun, [silent] = half(server), connected(server, 1)
    watches = watching(server, 30)
    are_told(watches)
    with server.session() as session:
        until(lambda: numbers(session.ask("stats"))["connections"], 32)
        os.kill(server.process.pid, signal.SIGTERM)
        are_ended(watches)
        is_answered(begun)
        assert all_of(silent) == b""
        assert session.rest() == b""
    assert server.end() == STOPPED


def test_a_server_without_a_control_place_which_nobody_else_could_stop_ends_its_watch_with_trailers_too(start, watching):
    server = start(before=BLOCKED, control=False)
    watches = watching(server, 1)
    are_told(watches)
    os.kill(server.process.pid, signal.SIGTERM)
    are_ended(watches)
    assert server.end() == STOPPED


def test_a_signal_that_came_before_the_server_listens_ends_it_once_it_does(start):
    server = start(before=("env", "--block-signal=TERM", "/bin/bash", "-c", 'kill -TERM $$; exec "$@"', "sh"))
    assert server.end() == STOPPED


# A history is kept.

@pytest.fixture
def start_with_journal(start, folder):
    return lambda: start("--journal", f"{folder}/journal", before=BLOCKED)


@pytest.fixture
def resumed(start_with_journal):
    """A server that resumes what another one left which had made a change, and was ended by SIGTERM."""
    server = start_with_journal()
    assert server.tell("down", "a") == ("done", 0)
    assert server.kill(signal.SIGTERM) == (0, "journal 4")
    return start_with_journal()


def test_a_server_with_a_journal_ends_so_too_and_the_next_one_resumes(resumed):
    assert resumed.tell("check", "a") == ("not serving", 0)


def test_what_was_answered_before_a_signal_is_an_entry_and_nothing_else_is(resumed):
    with resumed.session() as session:
        session.send("up a\ndown a\n" * 200)
        os.kill(resumed.process.pid, signal.SIGINT)
        answers = session.rest().count(b"done\n")
    assert resumed.end() == (0, f"journal {4 + answers}")


@both
def test_a_signal_ends_process_1_in_good_order_to_which_the_system_sends_it_because_it_is_blocked(start, watching, half, number):
    namespace = ("unshare", "-pf", "--kill-child", "--mount-proc")
    if subprocess.run([*namespace, "true"], capture_output=True, check=False).returncode != 0:
        pytest.skip("no PID namespace can be made here")
    server = start(before=(*namespace, *BLOCKED))
    with open(f"/proc/{server.process.pid}/task/{server.process.pid}/children", encoding="utf-8") as file:
        first = int(file.read())
    begun = half(server)
    watches = watching(server, 10)
    are_told(watches)
    until(lambda: server.stats()["connections"], 11)
    os.kill(first, number)
    are_ended(watches)
    is_answered(begun)
    assert server.end() == STOPPED
