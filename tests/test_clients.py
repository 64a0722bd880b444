"""Clients that say nothing, or too little, or take all places, and Checks beside them."""
import contextlib
import os
import random
import re
import select
import socket
import struct
import time

import pytest

from support.process import frozen, processor_seconds, without_descriptors
from support.session import numbers
from support.waiting import until
from support.wire import MESSAGE, NOT_SERVING, OK, SERVING, WATCH_END, all_of, call, exchange, get, head, rest_of, status

pytestmark = pytest.mark.timed

CHECK, WATCH = call("Check", "a"), call("Watch", "a")
EACH = 100
TRIES = 20  # because a pause of the machine makes a client late


def counted(server, *names):
    stats = server.stats()
    return [stats[name] for name in names]


def is_told_nothing(client, seconds):
    """Whether nothing comes for so long."""
    return select.select([client], [], [], seconds)[0] == []


# Clients that say nothing, or too little.

def test_checks_are_answered_beside_clients_that_say_nothing_or_too_little_and_those_that_leave_are_counted_as_gone(start, connected):
    server = start("--threads", "3")
    beside = connected(server, 3) + connected(server, 3, b"POST ")
    assert all(server.check().endswith(OK) for _ in range(6))
    for client in beside:
        client.close()
    until(lambda: counted(server, "calls", "gone", "given_up", "connections"), [12, 6, 0, 0])


def test_a_request_has_ten_seconds_however_its_bytes_come_and_a_watch_that_nobody_reads_has_more(start, connected, watching):
    server = start("--threads", "3")
    silent, slow = connected(server, EACH), connected(server, EACH)
    watches = watching(server, EACH)
    answers = []
    for byte in b"POST /grpc.":
        for client in slow:
            with contextlib.suppress(OSError):
                client.sendall(bytes([byte]))
        answers.append(server.check())
        time.sleep(1)  # no other byte comes for a second
    # Checks are answered beside clients that send a byte a second.
    assert all(answer.endswith(OK) for answer in answers)
    # Clients whose requests are not whole in ten seconds are closed.
    assert {rest_of(client) for client in silent + slow} == {b""}
    # They are given up, and no Watch is.
    until(lambda: counted(server, "calls", "gone", "given_up", "watches"), [11 + 2 * EACH, 0, 2 * EACH, EACH])
    server.tell("stop")
    assert [watch.rest() for watch in watches] == [[SERVING]] * EACH
    assert server.end() == (0, "journal 3")


@pytest.mark.parametrize("sent", [b"", CHECK[:-1]], ids=["nothing", "all but the last byte"])
def test_a_client_whose_request_is_not_whole_is_closed_after_ten_seconds_and_not_before(start, connected, within, sent):
    server = start("--threads", "2")
    begins = time.monotonic()
    [client] = connected(server, 1, sent)
    assert rest_of(client) == b""
    seconds = time.monotonic() - begins
    assert seconds >= 10
    within.took(seconds, 11, begins)


def test_where_two_loops_have_no_place_left_a_check_waits_until_one_is_free(start, connected):
    server = start("--threads", "2", "--connections", "3", "--watches", "2")
    silent = connected(server, 3)
    [late] = connected(server, 1, CHECK)
    assert is_told_nothing(late, 0.3)
    silent.pop().close()
    assert rest_of(late).endswith(OK)


# Of the loops that wait one is woken for a client.

CAME = 200


def waits(server):
    """How often its threads have waited by now."""
    total = 0
    for thread in os.listdir(f"/proc/{server.process.pid}/task"):
        # One that has ended meanwhile waits no more.
        with contextlib.suppress(FileNotFoundError, ProcessLookupError):
            with open(f"/proc/{server.process.pid}/task/{thread}/status", encoding="utf-8") as file:
                total += int(re.search(r"^voluntary_ctxt_switches:\s*(\d+)$", file.read(), re.MULTILINE)[1])
    return total


def waits_beside(server, act):
    """How often they wait while this is done so many times, at intervals of a hundredth of a second, and how long that takes."""
    before, begins = waits(server), time.monotonic()
    for _ in range(CAME):
        act()
        time.sleep(0.01)
    return waits(server) - before, time.monotonic() - begins


def test_one_of_four_loops_is_woken_for_a_client(start, connected):
    server = start("--threads", "4")
    idle, rest = waits_beside(server, lambda: None)
    found, seconds = waits_beside(server, lambda: connected(server, 1))
    # Each loop waits for a tenth of a second at most, so that all wait more often the longer it takes.
    idle = round(idle * seconds / rest)
    assert found - idle < 2 * CAME, f"{CAME} clients end {found - idle} waits, beside {idle}"


# How clients leave, and how they stay, beside a Watch.

@pytest.fixture
def server(start):
    return start("--threads", "2", "--quiet")


@pytest.fixture
def watch(server):
    """A Watch beside the clients, which has been told its status."""
    with contextlib.closing(server.watch()) as watch:
        assert watch.next() == SERVING
        yield watch


@pytest.mark.usefixtures("watch")
def test_a_client_that_is_refused_before_its_body_has_come_may_send_that_without_a_reset(server):
    for tries in range(1, TRIES + 1):
        # The tenth of a second begins with the answer, and so after the request: what is sent later than that shows nothing.
        begins = time.monotonic()
        with server.connect() as client:
            client.sendall(head("Check", bytes(20_000)))
            found = all_of(client)
            client.sendall(b"0123456789abcdef" * 1_250)
            is_late = time.monotonic() - begins > 0.09
            time.sleep(0.3)  # no reset comes
            error = client.getsockopt(socket.SOL_SOCKET, socket.SO_ERROR)
        if not is_late:
            break
    else:
        pytest.fail(f"the body was late in each of {TRIES} tries")
    assert found.endswith(b"grpc-status:8\r\ngrpc-message:request too large\r\n")
    assert error == 0
    # It has ended, and is not gone.
    until(lambda: counted(server, "calls", "gone", "connections", "watches"), [tries, 0, 1, 1])


@pytest.mark.usefixtures("watch")
def test_a_watch_whose_client_closes_its_side_is_told_the_status_and_closed_and_is_not_gone(server):
    with server.connect() as client:
        client.sendall(WATCH)
        client.shutdown(socket.SHUT_WR)
        assert all_of(client).endswith(b"\r\n\r\n7\r\n" + status(SERVING) + b"\r\n")
    until(lambda: counted(server, "calls", "gone", "connections", "watches"), [1, 0, 1, 1])


@pytest.mark.usefixtures("watch")
def test_a_client_that_resets_its_connection_is_gone(server):
    with server.connect() as client:
        client.sendall(b"POST ")
        until(lambda: counted(server, "connections"), [2])
        client.setsockopt(socket.SOL_SOCKET, socket.SO_LINGER, struct.pack("ii", 1, 0))
    until(lambda: counted(server, "calls", "gone", "connections"), [1, 1, 1])


@pytest.mark.usefixtures("watch")
def test_a_client_that_stays_after_its_answer_is_closed_and_counts_as_no_other(server, within):
    with server.session() as session, server.connect() as client:
        client.sendall(get("/"))
        assert all_of(client).startswith(b"HTTP/1.1 405 ")
        # The session is asked because a command would take a part of the time.
        with within(0.7):
            until(lambda: [numbers(session.ask("stats"))[name] for name in ("calls", "gone", "given_up", "connections", "watches")], [1, 0, 0, 1, 1])


def test_a_watch_after_whose_request_64_kib_have_come_is_open_and_one_more_byte_ends_it_and_it_is_gone(server, watch):
    watch.client.sendall(b"0123456789abcdef" * 4_096)
    time.sleep(0.3)  # it is not ended
    assert counted(server, "watches", "gone") == [1, 0]
    watch.client.sendall(b"x")
    until(lambda: counted(server, "watches", "gone", "connections"), [0, 1, 0])


# What has ended gives its place back once: there are as many as before then, and no more.

ENDED = 500


def is_checked(server):
    assert server.check().endswith(OK)


def is_watched(server):
    with contextlib.closing(server.watch()) as watch:
        assert watch.next() == SERVING


def is_got(server):
    assert exchange(server.plain, get("/healthz")).startswith(b"HTTP/1.1 200 ")


def is_refused(server):
    assert exchange(server.port, get("/")).startswith(b"HTTP/1.1 405 ")


def is_left(server):
    server.connect().close()


def is_reset(server):
    with server.connect() as client:
        client.sendall(b"POST ")
        client.setsockopt(socket.SOL_SOCKET, socket.SO_LINGER, struct.pack("ii", 1, 0))


KINDS = [is_checked, is_watched, is_got, is_refused, is_left, is_reset]


@pytest.mark.parametrize("kinds", [*([kind] for kind in KINDS), KINDS], ids=lambda kinds: kinds[0].__name__ if kinds[1:] == [] else "each_in_turn")
def test_after_500_have_ended_as_many_connections_and_watches_are_held_as_before(start, connected, watching, kinds):
    server = start("--threads", "3", "--connections", "6", "--watches", "2", "--plain", "127.0.0.1:0", "--quiet")
    for number in range(ENDED):
        kinds[number % len(kinds)](server)
    # Each has been counted as ended, and so has given its places back.
    until(lambda: counted(server, "calls", "connections", "watches"), [ENDED, 0, 0])
    watches, others = watching(server, 2), connected(server, 4)
    assert [watch.next() for watch in watches] == [SERVING] * 2
    until(lambda: counted(server, "connections", "watches"), [6, 2])
    # One connection more waits, and one Watch more is told its end.
    [late] = connected(server, 1, CHECK)
    assert is_told_nothing(late, 0.3)
    others.pop().close()
    assert rest_of(late).endswith(OK)
    assert [watch.rest() for watch in watching(server, 1)] == [[SERVING]]


# It waits for clients without a look at them.

@pytest.fixture
def quiet(start, connected, watching):
    """A server of one loop, beside a Watch and clients that are silent."""
    server = start("--threads", "1", "--quiet")
    connected(server, 3)
    connected(server, 3, b"POST ")
    [watch] = watching(server, 1)
    assert watch.next() == SERVING
    until(lambda: counted(server, "connections"), [7])
    return server


def test_a_server_whose_clients_are_silent_takes_next_to_no_time_of_the_processor(quiet):
    before = processor_seconds(quiet.process)
    time.sleep(2)  # nothing is done
    assert processor_seconds(quiet.process) - before < 0.2


def test_fifty_checks_one_after_another_are_answered_in_time_beside_silent_clients(quiet, within):
    with within(2):
        answers = [quiet.check() for _ in range(50)]
    assert all(answer.endswith(OK) for answer in answers)


def test_where_descriptors_run_out_it_goes_on_and_a_check_waits_until_there_are_some_again(start, connected, watching, within):
    server = start("--threads", "1", "--quiet")
    [watch] = watching(server, 1)
    with server.session() as session:
        assert (watch.next(), session.ask("check a")) == (SERVING, "serving")
        with without_descriptors(server.process):
            [late] = connected(server, 1, CHECK)
            before = processor_seconds(server.process)
            # A Watch is told a change meanwhile.
            assert (session.ask("down a"), watch.next()) == ("done", NOT_SERVING)
            assert is_told_nothing(late, 0.5)
            time.sleep(1)  # nothing is done, which takes next to no time of the processor
            assert processor_seconds(server.process) - before < 0.2
        with within(0.5):
            found = rest_of(late)
        assert found.endswith(status(NOT_SERVING) + OK)


def test_two_hundred_checks_at_a_server_that_may_have_64_files_are_all_answered_and_a_watch_beside_them_stays(start, connected, watching):
    server = start("--threads", "1", before=("prlimit", "--nofile=64:64"))
    [watch] = watching(server, 1)
    clients = connected(server, 200, CHECK)
    assert {rest_of(client)[-len(status(SERVING) + OK):] for client in clients} == {status(SERVING) + OK}
    until(lambda: counted(server, "connections", "watches", "calls"), [1, 1, 200])
    assert (server.tell("down", "a"), watch.told(2)) == (("done", 0), [SERVING, NOT_SERVING])


def test_of_a_hundred_connections_ninety_may_be_watches_and_the_next_is_told_its_status_and_ends_beside_checks(start, watching):
    server = start("--connections", "100", "--threads", "2")
    watches = watching(server, 90)
    assert [watch.next() for watch in watches] == [SERVING] * 90
    for _ in range(5):
        [late] = watching(server, 1)
        assert late.rest() == [SERVING]
        assert server.check().endswith(OK)
    assert server.tell("down", "a") == ("done", 0)
    assert [watch.next() for watch in watches] == [NOT_SERVING] * 90


# Clients that come while it is frozen are taken in by all of its loops, which share the places for connections and for Watches.

PLACES, MORE, LEAVE = 400, 20, 40
WATCHES, OPEN = 350, 300


@pytest.fixture
def four_loops(start):
    return start("--threads", "4", "--quiet", "--connections", str(PLACES), "--watches", str(OPEN))


@pytest.fixture
def held(four_loops, connected):
    """More clients of four loops than there are places."""
    with frozen(four_loops.process):
        clients = connected(four_loops, PLACES + MORE)
    until(lambda: counted(four_loops, "connections"), [PLACES])
    return clients


def test_four_loops_hold_as_many_connections_as_there_are_places_and_the_others_get_in_where_as_many_have_left(four_loops, held):
    time.sleep(0.3)  # no more of them are held
    assert counted(four_loops, "connections", "calls") == [PLACES, 0]
    for client in held[:MORE]:
        client.close()
    until(lambda: counted(four_loops, "connections", "calls"), [PLACES, MORE])


def test_a_check_that_waits_for_a_place_is_answered_once_one_is_free_whichever_loop_gives_it_back(four_loops, held, connected, within):
    for client in held[:MORE]:
        client.close()
    until(lambda: counted(four_loops, "connections", "calls"), [PLACES, MORE])
    held, answers, waited, begins = held[MORE:], [], 0, time.monotonic()
    random.shuffle(held)
    for client in held[:LEAVE]:
        [late] = connected(four_loops, 1, CHECK)
        time.sleep(0.01)
        client.close()
        left = time.monotonic()
        answers.append(rest_of(late))
        waited += time.monotonic() - left
        held += connected(four_loops, 1)
        time.sleep(0.01)
    assert all(answer.endswith(OK) for answer in answers)
    within.took(waited, 0.6, begins)  # all of them together
    for client in held:
        client.close()
    until(lambda: counted(four_loops, "connections", "calls"), [0, PLACES + MORE + 2 * LEAVE])
    before = processor_seconds(four_loops.process)
    time.sleep(1)  # nothing is done
    assert processor_seconds(four_loops.process) - before < 0.2


@pytest.fixture
def watches(four_loops, connected):
    """Clients of more Watches than may be open."""
    with frozen(four_loops.process):
        clients = connected(four_loops, WATCHES, WATCH)
    # Once the others are counted as calls that have ended, none of them is left that was not accepted, or not read.
    until(lambda: counted(four_loops, "connections", "watches", "calls"), [OPEN, OPEN, WATCHES - OPEN])
    return clients


def come_to(client):
    """Whether the connection of a Watch is open, and what has come after the head."""
    client.settimeout(0.01)
    read = b""
    try:
        while part := client.recv(400):
            read += part
        is_open = False
    except TimeoutError:
        is_open = True
    return is_open, read.partition(b"\r\n\r\n")[2]


@pytest.mark.usefixtures("watches")
def test_a_check_is_answered_beside_as_many_watches_as_may_be_open(four_loops):
    assert four_loops.check().endswith(OK)


@pytest.mark.usefixtures("watches")
def test_one_watch_more_than_may_be_open_is_told_the_status_and_its_end(four_loops, watching):
    assert [watch.rest() for watch in watching(four_loops, 1)] == [[SERVING]]


def test_of_350_watches_300_stay_open_and_each_is_told_the_status_and_the_others_their_end(watches):
    message = b"7\r\n" + status(SERVING) + b"\r\n"
    assert sorted(map(come_to, watches)) == [(False, message + WATCH_END)] * 50 + [(True, message)] * 300


def test_the_places_of_watches_that_have_left_serve_others_and_those_that_stay_are_told_each_change(four_loops, watches, connected, within):
    stay = [client for client in watches if come_to(client)[0]]
    random.shuffle(stay)
    for client in stay[100:]:
        client.close()
    until(lambda: counted(four_loops, "connections", "watches"), [100, 100])
    with frozen(four_loops.process):
        others = connected(four_loops, 250, WATCH)
    until(lambda: counted(four_loops, "connections", "watches"), [300, 300])
    few = stay[:30]
    for client in stay[30:100] + others:
        client.close()
    until(lambda: counted(four_loops, "connections", "watches"), [30, 30])

    def are_told(number):
        """Whether each of them is told this status next."""
        message = MESSAGE + bytes([number]) + b"\r\n"
        return all(client.recv(len(message)) == message for client in few)

    for client in few:
        client.settimeout(10)
    with four_loops.session() as session:
        # Each of them is told a change before the next is made.
        with within(0.8):
            told = [(session.ask(f"{word} a"), are_told(number)) for word, number in (("down", NOT_SERVING), ("up", SERVING)) * 10]
    assert told == [("done", True)] * 20
