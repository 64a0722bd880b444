"""The operator gets in where clients have taken all descriptors that are left for them, and nothing is written to a standard descriptor that
was closed."""
import contextlib
import os
import selectors
import socket
import subprocess
import threading

import pytest

from support.waiting import until
from support.wire import call

pytestmark = pytest.mark.timed

CLIENTS = 1_100
FEW_FILES = ("prlimit", "--nofile=1024:4096")


@pytest.fixture
def crowded(start):
    """A server that has more Watches than its files allow, and its clients. Half of them come first, so that each of them gets in."""
    server = start("--threads", "4", before=FEW_FILES)
    with contextlib.ExitStack() as opened:
        watches = [opened.enter_context(socket.socket()) for _ in range(CLIENTS)]
        for client in watches[:CLIENTS // 2]:
            client.settimeout(10)
            client.connect(("127.0.0.1", server.port))
        for client in watches[CLIENTS // 2:]:
            client.setblocking(False)
            with contextlib.suppress(BlockingIOError):
                client.connect(("127.0.0.1", server.port))
        for client in watches:
            client.settimeout(10)
            client.sendall(call("Watch", "a"))
        yield server, watches


def half_are_told(watches):
    """Half of the Watches are told a status, and the other half never read."""
    assert sum(bool(client.recv(400)) for client in watches[:CLIENTS // 2]) == CLIENTS // 2


def test_of_more_watches_than_files_as_many_are_open_as_nine_tenths_of_the_connections(crowded):
    server, watches = crowded
    half_are_told(watches)
    until(lambda: server.stats()["watches"], 864)


def test_tell_and_ask_are_answered_within_a_second_beside_more_watches_than_files(crowded, within):
    server, watches = crowded
    half_are_told(watches)
    with within(1):
        assert server.tell("list") == ("a=serving db=serving -=serving", 0)
    with within(1):
        assert server.tell("down", "a") == ("done", 0)
    until(lambda: server.stats()["watches"], 864)  # it is busy with those that come until then
    with within(1):
        assert server.ask("--name", "a")[0].startswith("NOT_SERVING")
    assert server.tell("up", "a") == ("done", 0)


def test_what_the_files_allow_is_told_at_the_start(start):
    assert start("--threads", "4", before=FEW_FILES).said() == "healthd: 1024 open files allow 960 connections, not 10000\n"


def test_files_are_set_apart_for_both_places(start, folder):
    server = start("--threads", "4", "--report", f"{folder}/report", before=FEW_FILES)
    assert server.said() == "healthd: 1024 open files allow 924 connections, not 10000\n"


def test_where_the_files_are_enough_nothing_is_told(start):
    assert start("--threads", "1", "--connections", "5", before=FEW_FILES).said() == ""


def test_where_the_files_leave_no_connection_it_does_not_start(start):
    server = start("--threads", "4", before=("prlimit", "--nofile=64:4096"), starts=False)
    assert (server.end()[0], server.said()) == (1, "healthd: too few open files\n")


@pytest.mark.parametrize("spare, lacking", [pytest.param(1, "bind 127.0.0.1:0", id="1 is left"), pytest.param(2, "event loop", id="2 are left")])
def test_where_others_have_all_descriptors_but_so_many_it_says_what_it_had_none_for(program, spare, lacking):
    taken = " ".join(f"{number}<&0" for number in range(3, 100 - spare))
    ran = program.run("run", "--listen", "127.0.0.1:0", "--threads", "1", given="catalogue -\n",
                      before=("/bin/bash", "-c", f'ulimit -n 100; exec "$@" {taken}', "sh"))
    assert (ran.returncode, ran.stdout, ran.stderr.splitlines()[-1:]) == (1, "", [f"healthd: {lacking}: Too many open files (os error 24)"])


def closing(numbers):
    """Has a shell become the program without these descriptors."""
    return ("/bin/bash", "-c", f'exec "$@" {" ".join(f"{number}<&-" for number in numbers)}', "sh")


def test_a_script_on_a_standard_input_that_is_closed_is_empty(program):
    ran = program.run("run", "--listen", "127.0.0.1:0", "--connections", "10", before=closing([0]))
    assert (ran.returncode, ran.stdout, ran.stderr) == (1, "", "healthd: no catalogue line\n")


def test_where_no_descriptor_can_be_opened_in_the_place_of_another_it_says_so(program):
    if program.has_sanitizer:
        pytest.skip("the memory checks of this program want a descriptor themselves, and try for it without end")
    ran = program.run("--version", before=(*closing([0, 1]), "prlimit", "--nofile=1"))
    assert (ran.returncode, ran.stderr) == (1, "healthd: Too many open files (os error 24)\n")


# Standard descriptors that are closed at the start: no file and no socket gets their numbers.

without = pytest.mark.parametrize("numbers", [(0,), (1,), (2,), (0, 1, 2)], ids=lambda numbers: "without " + " ".join(map(str, numbers)))


@pytest.fixture
def closed(start, folder, numbers):
    """A run without these descriptors that takes sessions, one of which has told it a change. Its others are /dev/null."""
    server = start("--journal", f"{folder}/journal", before=closing(numbers), script="catalogue a -\nregister a manual\nregister - depends a\n",
                   starts=False, out=subprocess.DEVNULL, err=subprocess.DEVNULL)
    until(lambda: server.tell("down", "a"), ("done", 0))
    return server


@without
def test_the_descriptors_that_a_run_is_without_are_dev_null(closed, numbers):
    assert [os.readlink(f"/proc/{closed.process.pid}/fd/{number}") for number in range(3)] == ["/dev/null"] * 3


@without
def test_a_run_without_descriptors_ends_well_and_its_journal_begins_as_one_does_and_has_each_change(program, closed, folder, numbers):
    for _ in range(2):
        assert closed.tell("up", "a") == ("done", 0)
    closed.stop()
    with open(f"{folder}/journal", "rb") as file:
        assert file.read(19) == b"\x01\x1ehealthd journal 1"
    ran = program.run("journal", f"{folder}/journal")
    assert (ran.returncode, len(ran.stdout.splitlines()), ran.stderr) == (0, 5, "")


class Recorder(threading.Thread):
    """Passes on what a client and a control place say to each other, and keeps what the client says."""

    def __init__(self, path, place):
        super().__init__(daemon=True)
        self.listener, self.place, self.said = socket.socket(socket.AF_UNIX), place, b""
        self.listener.bind(path)
        self.listener.listen()
        self.start()

    def run(self):
        client, _ = self.listener.accept()
        server = socket.socket(socket.AF_UNIX)
        server.connect(self.place)
        ready = selectors.DefaultSelector()
        ready.register(client, selectors.EVENT_READ)
        ready.register(server, selectors.EVENT_READ)
        with self.listener, ready, client, server:
            while True:
                ends = [key.fileobj for key, _ in ready.select()]
                part = ends[0].recv(65_536)
                if not part:
                    return
                if ends[0] is client:
                    self.said += part
                (server if ends[0] is client else client).sendall(part)


@without
@pytest.mark.parametrize("words", [("tell", "up", "a"), ("status",), ("history",)], ids=lambda words: words[0])
def test_a_command_without_descriptors_says_the_same_to_the_server(program, closed, folder, numbers, words):
    def sent(before):
        path = f"{folder}/recorder"
        recorder = Recorder(path, closed.control)
        ran = program.run(words[0], "--control", path, *words[1:], before=before)
        recorder.join(30)
        os.remove(path)
        return ran.returncode, recorder.said

    status, said = sent(())
    assert status == 0
    assert sent(closing(numbers)) == (0, said)
