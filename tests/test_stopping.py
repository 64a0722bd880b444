"""A server that is told to stop ends soon, and answers what was accepted."""
import contextlib
import fcntl
import socket
import struct
import termios
import threading
import time

import pytest

from support.command import ran
from support.process import frozen
from support.waiting import until
from support.watch import Watch
from support.wire import ENDED, NOT_SERVING, OK, SERVING, all_of, call, head, request, rest_of, status

pytestmark = pytest.mark.timed

REQUEST, CHECK = request("a"), call("Check", "a")
HEAD = head("Check", REQUEST)
TRIES = 20  # because a pause of the machine makes a client late


def holds(server, count):
    """Waits until it holds so many connections: one that is not accepted by the time of the stop would be reset."""
    until(lambda: server.stats()["connections"], count)


def is_told_to_stop(server):
    with server.session() as session:
        assert session.ask("stop") == "stopping"


def say_late(client, line):
    """Says a line to a session that may be over."""
    with contextlib.suppress(OSError):
        client.sendall(line)


# Clients that are there at the stop.

def test_a_server_without_clients_stops_in_time(server, within):
    with within(0.5):
        server.stop()


def test_an_idle_connection_is_closed_soon_after_the_stop_and_the_server_ends_after_it(server, connected, within):
    [idle] = connected(server, 1)
    holds(server, 1)
    is_told_to_stop(server)
    with within(0.6):
        assert all_of(idle) == b""
    with within(0.5):
        assert server.end() == (0, "journal 3")


def test_a_server_with_a_watch_stops_in_time_and_the_watch_is_told_its_end(server, connected, within):
    [client] = connected(server, 1, call("Watch", "a"))
    while status(SERVING) not in client.recv(400):
        pass
    with within(0.5):
        server.stop()
    assert ENDED in all_of(client)


def test_a_check_that_is_sent_a_tenth_of_a_second_after_the_stop_is_answered(start):
    for _ in range(TRIES):
        server = start()
        with server.connect() as late, server.connect() as half:
            half.sendall(HEAD)
            holds(server, 2)
            begins = time.monotonic()
            is_told_to_stop(server)
            time.sleep(0.1)
            say_late(late, CHECK)
            seconds = time.monotonic() - begins
            # What comes later than two tenths of a second after the stop is not answered.
            if seconds < 0.2:
                assert rest_of(late).endswith(OK)
                break
        server.kill()
    else:
        pytest.fail(f"in the last of {TRIES} tries it was sent after {seconds:.1f} s")
    # The other client has left, and nobody waits for it.
    assert server.end() == (0, "journal 3")


def test_a_request_that_was_begun_is_answered_when_it_is_whole_and_the_server_ends_after_it(server, connected, within):
    [half] = connected(server, 1, HEAD)
    holds(server, 1)
    is_told_to_stop(server)
    time.sleep(1)  # the server does not end meanwhile
    with within(1):
        half.sendall(REQUEST)
        assert all_of(half).endswith(OK)
        assert server.end()[0] == 0


def test_watches_are_ended_and_requests_that_are_made_whole_are_answered_and_nobody_waits_for_clients_that_leave(start, connected, watching, within):
    server = start("--threads", "3")
    begun, leaving = connected(server, 3, CHECK[:40]), connected(server, 3, CHECK[:40])
    # They come later, so that the others are held by then.
    watches = watching(server, 3)
    assert [watch.next() for watch in watches] == [SERVING] * 3
    is_told_to_stop(server)
    assert [watch.rest() for watch in watches] == [[]] * 3
    for client in begun:
        client.sendall(CHECK[40:])
    assert all(rest_of(client).endswith(OK) for client in begun)
    for client in leaving:
        client.close()
    # Their requests had ten seconds.
    with within(5):
        assert server.end() == (0, "journal 3")


# A session whose answers nobody reads: more lists than a socket holds, each of 1,900 bytes, and changes between them.

NAMES = ["x" * 120 + letter for letter in "abcdefghijklmno"]
LISTED = " ".join([*(f"{name}=absent" for name in NAMES), "-=serving"]).encode() + b"\n"
LISTS = 5_000


def waiting(client):
    """How many bytes have come that are not read."""
    return struct.unpack("i", fcntl.ioctl(client, termios.FIONREAD, bytes(4)))[0]


def test_answers_that_wait_at_the_stop_are_sent_whole_and_what_is_answered_is_an_entry_and_nothing_else_is(start):
    # A socket of an address takes a part of an answer, where a Unix socket takes all of it or nothing.
    server = start(script=f"catalogue {' '.join(NAMES)} -\nregister - manual\n", control="127.0.0.1:0")
    with server.session() as full, server.session() as idle, server.session() as last:
        full.send("list\nup -\n" * LISTS)
        assert idle.ask("list").encode() + b"\n" == LISTED
        before = 0
        while (now := waiting(full.client)) != before or not now:
            before = now
            time.sleep(0.5)  # no more comes in that time
        assert last.ask("stop") == "stopping"
        # What comes after the stop is not answered.
        say_late(idle.client, b"shutdown\n")
        say_late(full.client, b"shutdown\n")
        assert idle.rest() == b""
        answers = full.rest()
    assert answers.endswith(b"\n") and ((LISTED + b"done\n") * LISTS).startswith(answers), f"{len(answers)} bytes"
    done = answers.count(b"done\n")
    assert done < LISTS
    assert server.end() == (0, f"journal {done + 1}")


# Those that pour, and those that have much left.

def test_checks_that_pour_are_answered_whole_or_not_at_all_and_hold_no_stop_up(start, within):
    server = start("--threads", "2")
    answered, refused, cut, ends = [], [], [], threading.Event()

    def pour():
        while not ends.is_set():
            try:
                with server.connect(5) as client:
                    client.sendall(CHECK)
                    answer = all_of(client)
            except OSError:
                # The system refuses those that were not accepted.
                refused.append(1)
                if not answered or ends.wait(0.01):
                    return
                continue
            (answered if answer.endswith(OK) else cut).append(answer)

    clients = [threading.Thread(target=pour, daemon=True) for _ in range(8)]
    for client in clients:
        client.start()
    try:
        until(lambda: len(answered) > 100, True)
        with within(3):
            server.stop()
    finally:
        ends.set()
        for client in clients:
            client.join()
    print(f"{len(answered)} Checks answered, {len(cut)} closed unread, {len(refused)} refused")
    assert [answer for answer in cut if answer] == []


def test_watches_that_have_much_left_to_be_told_are_told_all_of_it_before_their_end(start, watching):
    server = start("--threads", "1", "--quiet")
    watches = watching(server, 100)
    assert [watch.next() for watch in watches] == [SERVING] * 100
    # Half of their clients have sent something too.
    for watch in watches[::2]:
        watch.client.sendall(b"x")
    with server.session() as session:
        session.send("down a\nup a\n" * 500 + "stop\n")
        assert session.rest() == b"done\n" * 1_000 + b"stopping\n"
    assert [watch.rest() for watch in watches] == [[NOT_SERVING, SERVING] * 500] * 100
    assert server.end() == (0, "journal 1003")


def is_refused(server):
    try:
        server.connect().close()
    except ConnectionRefusedError:
        return True
    return False


def test_it_accepts_no_more_and_requests_that_were_begun_keep_their_ten_seconds(server, connected, within):
    begins = time.monotonic()
    begun, never = connected(server, 2, HEAD)
    holds(server, 2)
    assert server.tell("stop")[0] == "stopping"
    until(lambda: is_refused(server), True, 5)
    time.sleep(max(0, begins + 8 - time.monotonic()))  # no more of them comes for eight seconds
    begun.sendall(REQUEST)
    sent = time.monotonic() - begins
    # The time is up ten seconds after the start, also where the machine pauses until then.
    assert rest_of(begun).endswith(OK) or sent > 9.8, f"it was sent after {sent} s"
    # One that is never whole has no answer.
    assert rest_of(never) == b""
    within.took(time.monotonic() - begins, 11, begins)
    assert server.end() == (0, "journal 3")


# Watches whose clients take nothing, or little at a time: the former have thirty seconds, and all that is left has thirty after the stop.

CHANGES = 6_000


@pytest.fixture
def full(start):
    """Makes a server whose sockets hold next to nothing, and so many Watches at it that have CHANGES to be told."""
    with contextlib.ExitStack() as opened:
        def make(count):
            with socket.socket() as listener:
                listener.setsockopt(socket.SOL_SOCKET, socket.SO_SNDBUF, 2_048)
                listener.bind(("127.0.0.1", 0))
                listener.listen()
                server = start("--threads", "1", "--quiet", script="catalogue a -\nregister a manual\n", handed=(listener,))
            watches = []
            for _ in range(count):
                client = socket.socket()
                client.setsockopt(socket.SOL_SOCKET, socket.SO_RCVBUF, 2_048)
                client.settimeout(20)
                client.connect(("127.0.0.1", server.port))
                watches.append(opened.enter_context(contextlib.closing(Watch(client))))
                assert watches[-1].next() == SERVING
            with server.session() as session:
                session.send("down a\nup a\n" * (CHANGES // 2))
                assert session.answers.read(5 * CHANGES) == b"done\n" * CHANGES
            return server, watches
        yield make


@pytest.mark.timeout(200)
def test_a_watch_whose_client_takes_nothing_has_thirty_seconds_and_one_that_has_closed_its_side_is_told_all_and_no_end(full):
    def counted():
        stats = server.stats()
        return [stats[name] for name in ("watches", "calls", "given_up", "gone")]

    begins = time.monotonic()
    server, (_, closing) = full(2)
    closing.client.shutdown(socket.SHUT_WR)
    assert counted() == [2, 0, 0, 0]
    fills = time.monotonic()
    assert closing.rest() == [NOT_SERVING, SERVING] * (CHANGES // 2) + [b""]
    # It has ended, and is not given up.
    until(counted, [1, 1, 0, 0])
    kept = 0
    while counted() == [1, 1, 0, 0] and time.monotonic() - fills < 35:
        kept = time.monotonic() - begins
        time.sleep(0.1)
    # The other is kept for close to thirty seconds, and given up after them.
    assert kept > 25
    until(counted, [0, 2, 1, 0], 3)


@pytest.mark.timeout(200)
def test_a_watch_whose_client_takes_little_at_a_time_is_served_for_thirty_seconds_after_the_stop_and_then_given_up(full, within):
    server, [little] = full(1)
    asked = time.monotonic()
    assert server.tell("stop")[0] == "stopping"
    stops, told = time.monotonic(), []
    while server.process.poll() is None and time.monotonic() - stops < 40:
        with contextlib.suppress(OSError):
            told += little.told(20)
        time.sleep(0.2)  # it takes nothing
    seconds, longest = time.monotonic() - stops, time.monotonic() - asked
    assert longest > 29.5
    # One whose thirty seconds began anew with each byte that it takes would go on to the end of those forty.
    within.took(seconds, 35, stops)
    assert told[:1_000] == [NOT_SERVING, SERVING] * 500, f"{len(told)}: {told[:3]}"
    assert server.end() == (0, f"journal {CHANGES + 1}")


# The command `stop`.

TIMED_OUT = "healthd: timed out, the server may still stop\n"


@pytest.mark.parametrize("control", [pytest.param(True, id="a Unix socket"), pytest.param("127.0.0.1:0", id="an address, from HEALTHD_CONTROL")])
def test_the_command_ends_a_server_with_its_watch_and_then_nobody_listens(program, start, watching, within, control):
    server = start(control=control)
    [watch] = watching(server, 1)
    assert watch.next() == SERVING
    with within(2):
        if control is True:
            stopping = ran(program, "stop", "--control", server.control)
        else:
            stopping = ran(program, "stop", control=server.control)
    assert stopping == (0, "stopping\n", "")
    again = ran(program, "stop", "--control", server.control)
    assert again[:2] == (1, "") and again.said.startswith(f"healthd: connect {server.control}: ")
    assert watch.rest() == []
    assert server.end() == (0, "journal 3")


def test_the_command_returns_once_nobody_is_let_in_though_a_request_may_still_be_made_whole_which_is_answered(program, start, connected, within):
    server = start(control="127.0.0.1:0")
    [half] = connected(server, 1, HEAD)
    holds(server, 1)
    with within(8):
        assert ran(program, "stop", "--control", server.control) == (0, "stopping\n", "")
    half.sendall(REQUEST)
    assert rest_of(half).endswith(OK)
    assert server.end()[0] == 0


def test_the_command_is_not_allowed_at_the_report_place(program, start, folder):
    start("--report", f"{folder}/report")
    assert ran(program, "stop", "--control", f"{folder}/report") == (3, "not allowed\n", "")


def test_the_command_waits_for_a_frozen_server_as_long_as_it_was_told_and_that_stops_once_it_goes_on(program, server, within):
    with frozen(server.process):
        with within(2):
            assert ran(program, "stop", "--control", server.control, "--timeout", "1") == (3, "", TIMED_OUT)
    # What was sent is answered once it goes on.
    assert server.end()[0] == 0


class Stubborn:
    """A control place that does the same with each session, and goes on."""

    def __init__(self, path, serve):
        self.listener = socket.socket(socket.AF_UNIX)
        self.listener.bind(path)
        self.listener.listen()
        self.has_ended = False
        self.thread = threading.Thread(target=self.run, args=(serve,), daemon=True)
        self.thread.start()

    def run(self, serve):
        while not self.has_ended:
            try:
                client, _ = self.listener.accept()
            except OSError:
                return  # it is closed
            with client, contextlib.suppress(OSError):
                serve(client)

    def close(self):
        self.has_ended = True
        self.listener.shutdown(socket.SHUT_RDWR)
        self.thread.join(20)
        self.listener.close()


@pytest.fixture
def stop_at(program, folder):
    """What comes of the command at a place PLACE that does this with each session."""
    with contextlib.ExitStack() as made:
        def stop(serve, *options):
            made.enter_context(contextlib.closing(Stubborn(f"{folder}/stubborn", serve)))
            command = ran(program, "stop", "--control", f"{folder}/stubborn", *options)
            return command._replace(said=command.said.replace(f"{folder}/stubborn", "PLACE"))
        yield stop


def answering(answer, later=0):
    """What answers a session, so many seconds later, and leaves it open."""
    def serve(client):
        time.sleep(later)
        client.sendall(answer)
        rest_of(client)
    return serve


def ending(client):
    """Ends a session once it has read a line of it."""
    client.makefile("rb").readline()


def leaving_unread(client):
    """Ends a session whose line it has not read."""
    client.recv(1, socket.MSG_PEEK)


def test_the_command_waits_for_a_server_that_goes_on_listening_as_long_as_it_was_told(stop_at, within):
    with within(2):
        assert stop_at(answering(b"stopping\n"), "--timeout", "1") == (3, "stopping\n", TIMED_OUT)


def test_the_command_does_not_wait_for_a_server_that_does_not_take_the_line(stop_at):
    assert stop_at(answering(b"bad line\n"))[:2] == (3, "bad line\n")


def test_the_command_waits_for_a_server_that_ends_the_session_without_an_answer_which_may_be_stopping_before(stop_at, within):
    with within(2):
        assert stop_at(ending, "--timeout", "1") == (3, "", TIMED_OUT)


@pytest.mark.parametrize("serve, said", [
    pytest.param(answering(b"too many sessions\n"), "too many sessions", id="has too many sessions"),
    pytest.param(answering(b"HTTP/1.0 bad line\n"), "PLACE answers HTTP, and is no control place", id="answers HTTP"),
    pytest.param(leaving_unread, "read PLACE: connection reset", id="leaves without reading the line"),
])
def test_the_command_does_not_wait_for_a_server_that(stop_at, serve, said):
    assert stop_at(serve) == (1, "", f"healthd: {said}\n")


def test_the_time_of_the_command_is_that_of_the_answer_and_of_the_end_together(stop_at, within):
    with within(1.5):
        command = stop_at(answering(b"stopping\n", later=0.8), "--timeout", "1")
    assert (command.status, command.said) == (3, TIMED_OUT)
