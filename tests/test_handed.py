"""A supervisor's socket: the server is stopped and started on it under load, and no client is lost. And what a supervisor is told."""
import contextlib
import os
import re
import socket
import threading
import time

import pytest

from support.wire import OK, all_of, call

pytestmark = pytest.mark.timed

CHECK = call("Check", "a")


@pytest.fixture
def listener():
    with socket.create_server(("127.0.0.1", 0)) as listener:
        yield listener


@pytest.fixture
def second():
    with socket.create_server(("127.0.0.1", 0)) as second:
        yield second


def port_of(listener):
    return listener.getsockname()[1]


@contextlib.contextmanager
def told_at(name):
    """Where a supervisor is told something."""
    with socket.socket(socket.AF_UNIX, socket.SOCK_DGRAM) as supervisor:
        supervisor.bind(name)
        supervisor.settimeout(10)
        yield supervisor


@pytest.fixture
def notify(folder):
    return f"{folder}/notify"


@pytest.fixture
def supervisor(notify):
    with told_at(notify) as supervisor:
        yield supervisor


# A restart under load.

CALLS = 10_000
CLIENTS = 8
# Half of the seconds that a connection has which has sent nothing when all is to end.
SILENT = 0.1


class Load:
    """Clients that call without end, until all calls are made and there were two restarts at least."""

    def __init__(self, port):
        self.port, self.bad, self.done, self.restarts, self.ends = port, [], [], 0, threading.Event()
        self.clients = [threading.Thread(target=self.call_all, daemon=True) for _ in range(CLIENTS)]

    def __enter__(self):
        for client in self.clients:
            client.start()
        return self

    def __exit__(self, fault, *_):
        if fault:
            self.restarts = 2  # so that they end
        for client in self.clients:
            client.join(60)

    def call(self):
        """What a Check is answered, or the error, and how many seconds it took to connect and to send it."""
        begins = sent = time.monotonic()
        try:
            with socket.create_connection(("127.0.0.1", self.port), 30) as client:
                try:
                    client.sendall(CHECK)
                finally:
                    sent = time.monotonic()
                return all_of(client), sent - begins
        except OSError as error:
            return error, sent - begins

    def call_all(self):
        """Calls. One that this machine has kept from sending may be closed for that, and calls again."""
        calls = 0
        while calls < CALLS // CLIENTS or self.restarts < 2:
            answer, seconds = self.call()
            if seconds > SILENT and (answer == b"" or isinstance(answer, ConnectionError)):
                continue
            (self.done if isinstance(answer, bytes) and answer.endswith(OK) else self.bad).append(answer)
            calls += 1
        self.ends.set()


@pytest.mark.timeout(300)  # 10,000 Checks, which take long where memory is checked
def test_no_client_is_refused_or_left_without_an_answer_while_the_server_is_stopped_and_started_on_its_socket(start, supervisor, notify):
    with socket.socket() as listener:
        listener.setsockopt(socket.SOL_SOCKET, socket.SO_REUSEADDR, 1)
        listener.bind(("127.0.0.1", 0))
        listener.listen(4_096)

        def start_on_it():
            server = start("--threads", "2", handed=(listener,), env={"NOTIFY_SOCKET": notify})
            # It arrives once the places are told.
            assert supervisor.recv(100) == b"READY=1"
            return server

        server = start_on_it()
        assert server.port == port_of(listener)
        with Load(server.port) as load:
            while not load.ends.is_set():
                time.sleep(0.3)  # nothing is lost meanwhile
                server.stop()
                assert supervisor.recv(100) == b"STOPPING=1"
                server = start_on_it()
                load.restarts += 1
        print(f"{len(load.done)} Checks through {load.restarts} restarts")
        assert load.bad == [] and len(load.done) >= CALLS
        assert load.restarts > 1
        server.stop()
        assert supervisor.recv(100) == b"STOPPING=1"


# What is handed over, and what the environment has to say for it.

def exporting(lines):
    """Has a shell say this to the program that it becomes."""
    return "/bin/bash", "-c", f'{lines}; exec "$@"', "sh"


def flags_of(server, each):
    """How the server has this socket open."""
    of_each = f"socket:[{os.fstat(each.fileno()).st_ino}]"
    names = [name for name in os.listdir(f"/proc/{server.process.pid}/fd") if os.readlink(f"/proc/{server.process.pid}/fd/{name}") == of_each]
    found = set()
    for name in names:
        with open(f"/proc/{server.process.pid}/fdinfo/{name}", encoding="utf-8") as file:
            found.add(int(re.search(r"flags:\t(\d+)", file.read())[1], 8))
    return found


def test_of_two_sockets_the_first_is_listened_at(start, listener, second):
    assert start(handed=(listener, second)).port == port_of(listener)


def test_a_socket_that_is_handed_over_does_not_wait_and_is_closed_at_exec(start, listener):
    server = start(handed=(listener,))
    flags = {flag & (os.O_NONBLOCK | os.O_CLOEXEC) for flag in flags_of(server, listener) if flag & os.O_CLOEXEC}
    assert flags == {os.O_NONBLOCK | os.O_CLOEXEC}


@pytest.mark.parametrize("lines", [
    "LISTEN_FDS=0", "LISTEN_FDS=", "LISTEN_FDS=01", "LISTEN_FDS=+1", "LISTEN_FDS=-1", "LISTEN_FDS=' 1'", "LISTEN_FDS='1 '", "LISTEN_FDS=1x",
    "LISTEN_FDS=1025", "LISTEN_FDS=4294967297", "LISTEN_PID=", "LISTEN_PID=1", "LISTEN_PID=0$$", "LISTEN_PID=$(($$ + 4294967296))",
    "LISTEN_PID=' '$$",
])
def test_nothing_is_handed_over_by(start, listener, lines):
    assert start(handed=(listener,), before=exporting(f"export {lines}")).port != port_of(listener)


@pytest.mark.parametrize("name", ["LISTEN_FDS", "LISTEN_PID"])
def test_nothing_is_handed_over_without(start, listener, name):
    assert start(handed=(listener,), before=exporting(f"unset {name}")).port != port_of(listener)


@pytest.fixture
def refuses(start):
    """A run to which these are handed over ends, and says that this descriptor is no socket that it can listen at."""
    def end(number, *handed, before=()):
        server = start(handed=handed, before=before, starts=False)
        assert server.end()[0] == 1
        assert server.said() == f"healthd: LISTEN_FDS: descriptor {number} is no listening TCP socket\n"
    return end


def test_a_connection_is_refused(refuses, listener):
    with socket.create_connection(listener.getsockname()) as streaming, listener.accept()[0]:
        refuses(3, streaming)


def test_a_unix_socket_that_listens_is_refused(refuses, folder):
    with socket.socket(socket.AF_UNIX) as unix:
        unix.bind(f"{folder}/listening")
        unix.listen()
        refuses(3, unix)


def test_what_is_no_listening_socket_is_refused(refuses):
    with open("/dev/null", encoding="utf-8") as null:
        refuses(3, null)


def test_what_is_no_listening_socket_is_refused_also_after_one_that_is(refuses, listener):
    with open("/dev/null", encoding="utf-8") as null:
        refuses(4, listener, null)


@pytest.mark.parametrize("count, number", [(1, 3), (2, 4)], ids=["the only one", "the second of two"])
def test_a_descriptor_that_is_closed_is_refused(refuses, listener, count, number):
    refuses(number, listener, before=exporting(f"exec {number}<&-; export LISTEN_FDS={count}"))


def test_a_third_one_that_is_closed_is_left_alone(start, listener, second):
    server = start(handed=(listener, second), before=exporting("exec 5<&-; export LISTEN_FDS=3"))
    assert (server.port, server.plain) == (port_of(listener), port_of(second))


def test_a_second_one_that_is_closed_is_refused_before_a_third_one_that_is_open(refuses, listener, second):
    with socket.create_server(("127.0.0.1", 0)) as third:
        # The first socket's own copy gets the number that is free.
        refuses(4, listener, second, third, before=exporting("exec 4<&-"))


# Whom the server tells, and that it waits for nobody who is told.

@pytest.fixture
def abstract():
    """A name of the abstract namespace, which no other test has."""
    return f"healthd-{os.getpid()}-{time.monotonic_ns()}"


def test_a_name_of_the_abstract_namespace_is_told_that_a_server_is_ready_and_that_it_stops(start, abstract):
    with told_at(f"\0{abstract}") as supervisor:
        server = start(env={"NOTIFY_SOCKET": f"@{abstract}"})
        assert supervisor.recv(100) == b"READY=1"
        server.stop()
        assert supervisor.recv(100) == b"STOPPING=1"


def has_room(name):
    """Whether the socket of this name takes a datagram at once."""
    with socket.socket(socket.AF_UNIX, socket.SOCK_DGRAM) as sender:
        sender.setblocking(False)
        try:
            sender.sendto(b"x", name)
        except BlockingIOError:
            return False
    return True


def test_a_check_is_answered_and_stop_ends_a_server_in_time_beside_a_supervisor_that_reads_nothing_and_has_no_room(start, abstract, within):
    with told_at(f"\0{abstract}"):
        assert not all(has_room(f"\0{abstract}") for _ in range(100_000))
        server = start(env={"NOTIFY_SOCKET": f"@{abstract}"})
        with within(5):
            answer = server.check()
        assert answer.endswith(OK)
        with within(10):
            server.stop()


@pytest.mark.parametrize("name", ["", "@", "/", "notify", "vsock:2:1234", "/" + "x" * 107, "/" + "x" * 300],
                         ids=["empty", "@", "the root", "a relative path", "vsock", "a path of 108 bytes", "a path of 301 bytes"])
def test_a_run_goes_on_where_nobody_can_be_told(start, name):
    assert start(env={"NOTIFY_SOCKET": name}).check().endswith(OK)


def test_a_run_without_one_of_its_places_is_never_ready(start, server, supervisor, notify):
    late = start("--report", server.control, env={"NOTIFY_SOCKET": notify}, starts=False)
    assert late.end()[0] == 1
    supervisor.setblocking(False)
    with pytest.raises(BlockingIOError):
        supervisor.recv(100)
