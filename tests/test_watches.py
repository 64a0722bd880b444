"""What many Watches are told, whoever makes the changes, and one whose client takes nothing."""
import contextlib
import io
import json
import socket
import string
import threading
import time

import pytest

from support.session import numbers
from support.waiting import until
from support.watch import Watch
from support.wire import MESSAGE, NOT_SERVING, OK, SERVICE_UNKNOWN, SERVING, WATCH_HEAD, call, exchange, get, status

pytestmark = pytest.mark.timed

SCRIPT = "catalogue a b -\nmax 10000\nregister a manual\nregister - manual\n"
TIMES = 1_000


@pytest.fixture
def watched(watching):
    """Opens so many Watches at a server, each of which has been told the first status."""
    def watch(server, count, name="a", first=SERVING):
        watches = watching(server, count, name)
        assert [watch.next() for watch in watches] == [first] * count
        return watches
    return watch


def change(server, line):
    with server.session() as session:
        assert session.ask(line) == "done"


def ends(server, watches, entries):
    """It stops: the Watches are told nothing more but their end, and it has made so many entries."""
    with server.session() as session:
        assert session.ask("stop") == "stopping"
    assert [watch.rest() for watch in watches] == [[]] * len(watches)
    assert server.end() == (0, f"journal {entries}")


def side_by_side(server, *talks):
    """Sessions that each say their lines so many times at once, and all answers that each was given."""
    answers = [set() for _ in talks]

    def say(lines, found):
        with server.session() as session:
            for number in range(TIMES):
                found.add(session.ask(lines[number % len(lines)]))

    threads = [threading.Thread(target=say, args=each) for each in zip(talks, answers)]
    for thread in threads:
        thread.start()
    for thread in threads:
        thread.join()
    return answers


def shown(server, name):
    """The statuses that a service which is set by hand has shown, one after the other, by the history."""
    ran = server.program.run("history", "--control", server.control, "--json")
    now, statuses = SERVICE_UNKNOWN, []
    for words in (json.loads(line)["call"].split() for line in ran.stdout.splitlines()):
        if words[1:2] != [name]:
            continue
        then = {"register": SERVING, "retire": SERVICE_UNKNOWN}.get(words[0])
        if then is None:
            then = SERVICE_UNKNOWN if now == SERVICE_UNKNOWN else {"up": SERVING, "down": NOT_SERVING}[words[0]]
        if then != now:
            statuses.append(then)
        now = then
    return statuses


def test_each_change_of_two_sessions_is_told_to_each_of_six_watches_at_three_loops_once_and_in_order(start, watched):
    server = start("--threads", "3", "--quiet", script=SCRIPT)
    watches = watched(server, 6)
    assert side_by_side(server, ("down a", "up a"), ("down a", "up a")) == [{"done"}] * 2
    # The first is the registration, which they were told as their first status.
    changes = shown(server, "a")[1:]
    assert changes[:2] == [NOT_SERVING, SERVING]
    assert all(watch.told(len(changes)) == changes for watch in watches)
    ends(server, watches, 2 + 2 * TIMES)


def test_a_watch_is_told_each_registration_and_retirement_that_shows_while_a_third_session_looks(start, watched):
    server = start("--threads", "2", "--quiet", script=SCRIPT)
    watches = watched(server, 1, "b", SERVICE_UNKNOWN)
    registered, retired, looked = side_by_side(server, ("register b manual",), ("retire b",), ("check b",))
    assert registered <= {"done", "replaced"}
    assert retired <= {"done", "missing"}
    assert looked <= {"serving", "not found"}
    changes = shown(server, "b")
    assert watches[0].told(len(changes)) == changes
    ends(server, watches, 2 + 2 * TIMES)


def test_as_many_watches_as_may_be_open_are_told_a_change_at_whichever_loop_and_are_counted_until_they_close(start, watched):
    server = start("--threads", "2", "--connections", "200", "--watches", "200", script=SCRIPT)
    watches = watched(server, 200)
    with server.session() as session:
        assert session.ask("down a") == "done"
        assert [watch.next() for watch in watches] == [NOT_SERVING] * 200
        until(lambda: session.ask("stats"), "entries 3 kept 3 connections 200 watches 200 sessions 1 calls 0 given_up 0 behind 0 gone 0 expired 0 "
              "left 9997 writable 1")
        for watch in watches:
            watch.close()
        until(lambda: session.ask("stats").split(" gone ")[0],
              "entries 3 kept 3 connections 0 watches 0 sessions 1 calls 200 given_up 0 behind 0")
    ends(server, [], 3)


def taken(client, size):
    """The next bytes that come, of so many."""
    read = b""
    while len(read) < size and (part := client.recv(size - len(read))):
        read += part
    return read


def test_ten_thousand_watches_are_each_told_a_change_once_and_are_counted_until_their_clients_close(start, connected):
    server = start("--threads", "2", "--connections", "10000", "--watches", "10000", script=SCRIPT)
    clients = connected(server, 10_000, call("Watch", "a"))
    with server.session() as session:
        until(lambda: numbers(session.ask("stats"))["watches"], 10_000, 60)
        told = WATCH_HEAD + MESSAGE + b"\x01\r\n"
        for line, told in (("down a", told + MESSAGE + b"\x02\r\n"), ("up a", MESSAGE + b"\x01\r\n")):
            assert session.ask(line) == "done"
            assert {taken(client, len(told)) for client in clients} == {told}
        for client in clients:
            client.close()
        until(lambda: [numbers(session.ask("stats"))[name] for name in ("connections", "watches", "calls")], [0, 0, 10_000], 60)


def test_more_watches_of_one_loop_than_are_looked_at_in_a_row_are_told_a_change(start, watched):
    server = start("--threads", "1", script=SCRIPT)
    watches = watched(server, 320)  # where 256 are looked at
    change(server, "down a")
    assert [watch.next() for watch in watches] == [NOT_SERVING] * 320
    ends(server, watches, 3)


def test_a_change_of_each_service_of_a_full_catalogue_is_told_to_its_watch_before_the_next_is_made(start, watched):
    names = [*string.ascii_lowercase[:15], "-"]
    server = start(script=f"catalogue {' '.join(names)}\n" + "".join(f"register {name} manual\n" for name in names))
    watches = [watch for name in names for watch in watched(server, 1, name.strip("-"))]
    assert len(watches) == 16
    with server.session() as session:
        told = [(session.ask(f"down {name}"), watch.next()) for name, watch in zip(names, watches)]
    assert told == [("done", NOT_SERVING)] * 16
    ends(server, watches, 32)


def test_where_the_history_is_full_the_last_change_is_told_and_checks_and_new_watches_are_answered(start, watched):
    server = start(script="catalogue a -\nmax 3\nregister a manual\nregister - manual\n")
    watches = watched(server, 1)  # there is room for one entry
    with server.session() as session:
        assert [session.ask("down a"), session.ask("up a")] == ["done", "refused full"]
    assert watches[0].next() == NOT_SERVING
    assert server.check().endswith(b"\r\n\r\n" + status(NOT_SERVING) + OK)
    watches += watched(server, 1, first=NOT_SERVING)
    ends(server, watches, 3)


# A client that takes nothing, or next to nothing, while its socket is full and the registry forgets what it was not told.

# What the registry keeps, and more changes than the sockets of a client hold: 72,000 bytes where these hold some 10,000.
KEPT, FULL = 65_536, 6_000
BATCH = 1_000
LENGTH = len(MESSAGE) + 3  # of a message, in bytes


@pytest.fixture
def narrow(start):
    """A server whose sockets hold next to nothing."""
    with socket.socket() as listener:
        # Those that are accepted hold as little.
        listener.setsockopt(socket.SOL_SOCKET, socket.SO_SNDBUF, 2_048)
        listener.bind(("127.0.0.1", 0))
        listener.listen()
        return start("--threads", "1", "--quiet", "--plain", "127.0.0.1:0", script="catalogue a -\nregister a manual\n", handed=(listener,))


@pytest.fixture
def idle(narrow):
    """A Watch whose client takes nothing of itself."""
    client = socket.socket()
    client.setsockopt(socket.SOL_SOCKET, socket.SO_RCVBUF, 2_048)
    client.settimeout(20)
    client.connect(("127.0.0.1", narrow.port))
    with contextlib.closing(Watch(client)) as watch:
        yield watch


@pytest.mark.timeout(400)  # 78,000 changes, which take long where memory is checked
def test_a_watch_whose_client_takes_nothing_ends_in_order_once_the_registry_forgets_and_is_counted_as_behind(narrow, idle, watched):
    [watch] = watched(narrow, 1)
    came, taken = b"", time.monotonic()
    with narrow.session() as session:
        def make(count):
            """Makes so many changes, each of which is told to who reads."""
            nonlocal came, taken
            for _ in range(count // BATCH):
                # Where the changes take long the other takes 300 messages now and then, because one that takes nothing for thirty seconds is
                # given up.
                if time.monotonic() - taken > 15:
                    came += idle.file.read(300 * LENGTH)
                    taken = time.monotonic()
                session.send("down a\nup a\n" * (BATCH // 2))
                assert session.answers.read(5 * BATCH) == b"done\n" * BATCH
                assert watch.told(BATCH) == [NOT_SERVING, SERVING] * (BATCH // 2)

        def counted():
            found = numbers(session.ask("stats"))
            return [found[name] for name in ("kept", "connections", "watches", "calls", "given_up", "behind")]

        make(FULL)
        # It is open while the registry has what it was not told.
        until(counted, [FULL + 1, 2, 2, 0, 0, 0])
        make(KEPT)
        make(FULL)
        idle.file = io.BytesIO(came + idle.file.read())
        told = idle.rest()
        # It is told the first statuses, which its socket held, in their order, and then the end.
        assert 1 < len(told) < FULL
        assert told == [1 + number % 2 for number in range(len(told))]
        until(counted, [KEPT, 1, 1, 1, 0, 1])
    metrics = exchange(narrow.plain, get("/metrics"))
    assert b"\nhealthd_behind_total 1\n" in metrics
    assert b"\nhealthd_watches_refused_total 0\n" in metrics  # it is not one that found no place
