"""What `ask`, `tell` and `run` say where a server is silent, slow, or not there."""
import contextlib
import socket
import subprocess
import time

import pytest

from support.command import ran
from support.naming import rows
from support.scripted import at_path, at_port
from support.wire import MESSAGE, SERVING, rest_of

pytestmark = pytest.mark.timed

GIVEN_UP = "healthd: timed out after 1 s\n"
TIMED_OUT = "healthd: timed out, the change may still be made"
RULES = "a threshold has counts from 1 to 1000, and a service depends on services that stand further left in the catalogue"
TRIES = 5  # because a server of this test's own may have no turn in a second


def asking_of(place):
    """What is asked where nothing was answered at this place."""
    return f"; is {place} a port for calls, and no control place?\n"


@pytest.fixture
def in_a_second(within):
    """What is given a second gives up in time, and not before its time is up."""
    @contextlib.contextmanager
    def give_up():
        begins = time.monotonic()
        with within(5):
            yield
        assert time.monotonic() - begins >= 1
    return give_up


@pytest.fixture
def silent():
    """The port of a server that lets clients in, and says nothing."""
    with socket.create_server(("127.0.0.1", 0)) as listener:
        yield listener.getsockname()[1]


@contextlib.contextmanager
def begun(program, *words):
    """A command that goes on until it ends, or is ended."""
    with subprocess.Popen([str(program), *words], text=True, env=program.environment, stdin=subprocess.PIPE, stdout=subprocess.PIPE,
                          stderr=subprocess.PIPE) as process:
        try:
            yield process
        finally:
            process.kill()


# Nobody is there, or nobody answers.

REFUSED = "connect 127.0.0.1:PORT: connection refused"


# The address and the cause are told with the options for scripts.
@pytest.mark.parametrize("options, why", rows([
    ((), "connect"), (("--name", "a"), "connect"), (("--watch", "2"), "connect"), (("--host", "127.0.0.1"), REFUSED),
    (("--timeout", "5"), REFUSED), (("--expect", "SERVING"), REFUSED), (("--name", "a", "--timeout", "5", "--watch", "1"), REFUSED),
], lambda options, _: " ".join(("ask", *options))))
def test_ask_says_where_nobody_listens(program, options, why):
    with socket.socket() as listener:
        listener.bind(("127.0.0.1", 0))
        port = str(listener.getsockname()[1])
        # Nobody listens at it.
        assert ran(program, "ask", "--port", port, *options) == (1, "", f"healthd: {why}\n".replace("PORT", port))


def test_ask_gives_up_where_a_server_is_silent(program, silent, in_a_second):
    with in_a_second():
        assert ran(program, "ask", "--port", str(silent), "--timeout", "1") == (1, "", GIVEN_UP)


def test_ask_waits_for_good_where_it_is_told_no_time(program, silent):
    with begun(program, "ask", "--port", str(silent)) as waiting:
        time.sleep(12)  # it does not end
        assert waiting.poll() is None


def test_tell_gives_up_after_ten_seconds_where_it_is_told_no_time_and_asks_whether_its_port_is_one_for_calls(program, silent, within):
    begins = time.monotonic()
    with within(15):
        command = ran(program, "tell", "--control", f"127.0.0.1:{silent}", "check", "-")
    assert time.monotonic() - begins >= 10
    assert (command.status, command.said) == (1, TIMED_OUT + asking_of(f"127.0.0.1:{silent}"))


# The time of an `ask` is that of the whole call, however many bytes come, and how slowly.

def send_bytewise(_, client):
    client.sendall(b"HTTP/1.1 200 OK\r\na: ")
    for _ in range(1_000):
        client.sendall(b"b")
        time.sleep(0.05)


def send_statuses(_, client):
    """Sends a Watch more statuses than it has time for."""
    client.sendall(b"HTTP/1.1 200 OK\r\ntransfer-encoding: chunked\r\n\r\n")
    while True:
        client.sendall((MESSAGE + bytes([SERVING]) + b"\r\n") * 1_000)


def test_ask_gives_up_where_a_server_sends_byte_by_byte(program, in_a_second):
    with at_port(send_bytewise) as scripted, in_a_second():
        assert ran(program, "ask", "--port", str(scripted.port), "--timeout", "1") == (1, "", GIVEN_UP)


def test_ask_gives_up_where_a_server_sends_statuses_without_end(program, in_a_second):
    for _ in range(TRIES):
        with at_port(send_statuses) as scripted, in_a_second():
            command = ran(program, "ask", "--port", str(scripted.port), "--timeout", "1", "--watch")
        if command.printed:
            break
    assert (command.status, set(command.printed.split("\n")), command.said) == (1, {"SERVING", ""}, GIVEN_UP)


@pytest.fixture
def unread():
    """A listener at which nothing is read that comes, and whose clients have no room for all of it either."""
    with socket.socket() as listener:
        # Small segments, because of the client's side.
        listener.setsockopt(socket.IPPROTO_TCP, socket.TCP_MAXSEG, 88)
        listener.setsockopt(socket.SOL_SOCKET, socket.SO_RCVBUF, 1_024)
        listener.bind(("127.0.0.1", 0))
        listener.listen()
        yield listener


def has_sent_a_part(listener, count):
    """The client has not written all, which are so many bytes."""
    with listener.accept()[0] as client:
        assert 0 < len(rest_of(client)) < count


def test_ask_gives_up_where_a_server_reads_nothing(program, unread, in_a_second):
    with in_a_second():
        command = ran(program, "ask", "--port", str(unread.getsockname()[1]), "--timeout", "1", "--name", "a" * 100_000)
    assert command == (1, "", GIVEN_UP)
    has_sent_a_part(unread, 100_000)


def test_tell_gives_up_where_a_server_reads_nothing_of_its_line(program, unread, in_a_second):
    with in_a_second():
        command = ran(program, "tell", "--control", f"127.0.0.1:{unread.getsockname()[1]}", "--timeout", "1", given="a" * 65_000)
    assert command[:2] == (1, "") and command.said.startswith(f"{TIMED_OUT}; is 127.0.0.1:")
    has_sent_a_part(unread, 65_000)


# `run`, where it cannot begin.

def test_run_says_that_its_address_is_in_use(program, silent):
    command = ran(program, "run", "--listen", f"127.0.0.1:{silent}", "--connections", "10", given="catalogue -\nregister - manual\n")
    assert command == (1, "", f"healthd: bind 127.0.0.1:{silent}: address in use\n")


def test_run_says_which_line_of_its_script_is_refused(program):
    command = ran(program, "run", "--listen", "127.0.0.1:0", "--connections", "10", given="catalogue a -\nregister a threshold 0\n")
    assert command == (1, "", f"healthd: script line 2: refused bad rule: {RULES}\n")


# A control place at which a server of the test's own answers the lines of one session.

def answering(answer):
    """Does this for each line."""
    def serve(scripted, client):
        with client.makefile("rb") as lines:
            for line in lines:
                scripted.heard += line
                answer(client)
    return serve


def part(client):
    client.sendall(b"s")


def bytewise(client):
    for _ in range(1_000):
        client.sendall(b"s")
        time.sleep(0.05)


def later(client):
    time.sleep(2)  # nothing is answered for two seconds
    client.sendall(b"done\n")


@pytest.mark.parametrize("answer", [pytest.param(part, id="a part of an answer"), pytest.param(bytewise, id="an answer byte by byte")])
def test_tell_gives_up_where_a_server_sends(program, folder, in_a_second, answer):
    with at_path(f"{folder}/control", answering(answer)) as scripted:
        with in_a_second():
            command = ran(program, "tell", "--control", f"{folder}/control", "--timeout", "1", "check", "-")
        assert command == (1, "", f"{TIMED_OUT}\n")
        # The line was sent.
        assert scripted.ended() == b"check -\n"


def test_each_line_of_tell_has_a_time_of_its_own_for_its_answer_and_is_told_once_in_its_order(program, folder):
    with at_path(f"{folder}/control", answering(later)) as scripted:
        # Three answers come in more than five seconds.
        command = ran(program, "tell", "--control", f"{folder}/control", "--timeout", "5", given="up a\nup b\npass c\n")
        assert command == (0, "done\n" * 3, "")
        assert scripted.ended() == b"up a\nup b\npass c\n"


def test_empty_lines_take_no_time_of_the_lines_after_them(program, server):
    with begun(program, "tell", "--control", server.control, "--timeout", "4") as slowly:
        # They come in more than four seconds.
        for _ in range(3):
            slowly.stdin.write("\n")
            slowly.stdin.flush()
            time.sleep(1.5)  # nothing else comes
        assert slowly.communicate("check -\n", timeout=20) == ("serving\n", "")


# A port for calls, and no control place.

def test_tell_asks_whether_it_was_sent_to_a_port_for_calls_where_it_was(program, server):
    command = ran(program, "tell", "--control", f"127.0.0.1:{server.port}", "--timeout", "1", "check", "a")
    assert command == (1, "", TIMED_OUT + asking_of(f"127.0.0.1:{server.port}"))


@pytest.mark.parametrize("word", ["status", "history"])
def test_a_command_that_changes_nothing_asks_so_too(program, server, word):
    command = ran(program, word, "--control", f"127.0.0.1:{server.port}", "--timeout", "1")
    assert command == (1, "", "healthd: timed out" + asking_of(f"127.0.0.1:{server.port}"))
