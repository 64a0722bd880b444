"""`healthd serve`: so many calls by so many workers, beside the orders of its script."""
import contextlib
import os
import socket
import threading
import time

import pytest

from support.naming import rows
from support.process import freeze, thaw
from support.serving import Serving
from support.waiting import PATIENCE
from support.wire import MESSAGE, OK, SERVING, WATCH_END, all_of, call, head, rest_of, status

pytestmark = pytest.mark.timed

REFUSED_TYPE = (b"POST /grpc.health.v1.Health/Check HTTP/1.1\r\ncontent-type: application/grpc-web-text\r\n"
                b"content-length: 5\r\n\r\n")
REFUSAL = b"HTTP/1.1 415 Unsupported Media Type\r\nconnection: close\r\ncontent-length: 0\r\n\r\n"
SERVES = status(SERVING) + OK
ONE = "catalogue a -\nmax 1\nregister a manual\n"


@pytest.fixture
def serve(program):
    """Starts one. At the end of the test each that was started ends."""
    with contextlib.ExitStack() as started:
        yield lambda *how: started.enter_context(contextlib.closing(Serving(program, *how)))


def ends(lines):
    """How the calls ended, without their numbers: workers take them as they come."""
    return sorted(line.split(" ", 2)[2] for line in lines[:-1])


def checked(server, name="a"):
    """The whole answer to a Check. A reset is an error."""
    with server.connect() as client:
        client.sendall(call("Check", name))
        return all_of(client)


def test_it_tells_where_it_listens(serve):
    one = serve(ONE, 1, 1)
    assert one.first == f"listening 127.0.0.1:{one.port}"


# One failure leaves `a` up; `b` is set down, and the whole depends on it; of `c` nothing is known.
STATUSES = ("catalogue a b c -\nmax 10\nregister a threshold 2\nregister c threshold 1 1 unknown\nregister b manual\n"
            "register - depends b\nfail a\ndown b\n")


@pytest.mark.parametrize("name, told", [("a", ["SERVING", "grpc-status 0"]), ("zz", ["grpc-status 5 unknown service"]),
                                        ("b", ["NOT_SERVING", "grpc-status 0"]), ("c", ["UNKNOWN", "grpc-status 0"]),
                                        ("", ["NOT_SERVING", "grpc-status 0"])], ids=["a", "zz", "b", "c", "the whole server"])
def test_a_check_is_answered_by_what_the_script_has_made(serve, name, told):
    assert serve(STATUSES, 1, 1).ask("--name", name) == told


def test_each_call_s_end_is_told_at_its_number_and_the_journal_s_length_at_last(serve):
    server = serve(STATUSES, 1, 5)
    for name in ("a", "zz", "b", "c", ""):
        server.ask("--name", name)
    assert server.end() == (0, ["call 0 status 0", "call 1 status 5", "call 2 status 0", "call 3 status 0", "call 4 status 0", "journal 6"], "")


def test_a_client_that_is_silent_keeps_another_from_no_answer_where_there_are_two_workers(serve):
    server = serve(ONE, 2, 2)
    with server.connect():
        assert server.ask("--name", "a", "--timeout", "20") == ["SERVING", "grpc-status 0"]
    code, lines, _ = server.end()
    assert (code, ends(lines), lines[-1]) == (0, ["fault read", "status 0"], "journal 1")


def test_there_may_be_64_workers_and_a_thousand_calls(serve):
    server = serve(ONE, 64, 1_000)
    with contextlib.ExitStack() as silent:
        for _ in range(63):
            silent.enter_context(server.connect())
        # With one worker less they would keep the last from its answer.
        assert server.ask("--name", "a", "--timeout", "20") == ["SERVING", "grpc-status 0"]
    for _ in range(1_000 - 64):
        server.connect().close()
    code, lines, _ = server.end()
    assert (code, ends(lines), lines[-1]) == (0, ["fault read"] * 999 + ["status 0"], "journal 1")


# What a connection carries.

def test_a_request_of_8328_bytes_that_comes_in_parts_of_seven_is_answered(serve):
    # The name is as long as one may be, so that each of its bytes counts, and is after a head that is as long as one may be.
    name = "".join(chr(ord("a") + number % 26) for number in range(128))
    body = b"\0\0\0\0\x83\x0a\x80\1" + name.encode()
    begin, end = head("Check", body).split(b"\r\n", 1)
    long = begin + b"\r\nx: " + b"y" * (8_192 - len(begin + end) - len("\r\nx: \r\n")) + b"\r\n" + end
    text = long + body
    assert (len(long), len(text)) == (8_192, 8_328)
    server = serve(f"catalogue a {name} -\nmax 10\nregister {name} manual\nregister a manual\n", 1, 1)
    with server.connect() as client:
        client.setsockopt(socket.IPPROTO_TCP, socket.TCP_NODELAY, 1)
        for place in range(0, len(text), 7):
            client.sendall(text[place:place + 7])
            time.sleep(0.0002)
        assert all_of(client).endswith(SERVES)
    assert server.end() == (0, ["call 0 status 0", "journal 2"], "")


def test_a_client_whose_body_is_not_read_gets_its_whole_answer_and_may_still_send(serve):
    server = serve(ONE, 1, 1)
    with server.connect() as client:
        client.sendall(REFUSED_TYPE.replace(b": 5", b": 40960") + b"b" * 40_960)
        answer = all_of(client)
        client.sendall(b"late")
    assert answer == REFUSAL
    assert server.end() == (0, ["call 0 http 415", "journal 1"], "")


def test_what_comes_within_a_tenth_of_a_second_after_an_answer_is_read_and_its_connection_is_not_reset(serve):
    for _ in range(20):
        # The tenth of a second begins with the answer, and so after the request: what is sent later than that shows nothing.
        once = serve(ONE, 1, 1)
        with once.connect() as client:
            begins = time.monotonic()
            client.sendall(REFUSED_TYPE)
            answer = all_of(client)
            client.sendall(b"late")
            is_late = time.monotonic() - begins > 0.08
            time.sleep(0.3)  # no reset comes
            error = client.getsockopt(socket.SOL_SOCKET, socket.SO_ERROR)
        once.end()
        if not is_late:
            break
    assert (answer, error) == (REFUSAL, 0)


def test_a_client_that_stays_once_it_was_answered_keeps_the_only_worker_for_no_longer_and_sees_the_end_before(serve, within):
    server = serve("catalogue a -\nmax 10\nregister a manual\n", 1, 4)
    waited = []
    with contextlib.ExitStack() as staying:
        for _ in range(3):
            client = staying.enter_context(server.connect())
            client.sendall(call("Check", "a"))
            answer = b""
            while not answer.endswith(OK):
                answer += client.recv(4096)
            begins = time.monotonic()
            rest = all_of(client)
            waited.append(time.monotonic() - begins)
        # It sees the end of its answer in time at least once in three times: it may be that the worker does not run between the two.
        within.took(min(waited), 0.05)
        found = checked(server)
        within.took(time.monotonic() - begins, 0.6)
    assert (answer, rest) == (found, b"") and found.endswith(SERVES)
    assert server.end() == (0, [*(f"call {number} status 0" for number in range(4)), "journal 1"], "")


def test_a_client_that_goes_on_sending_keeps_the_only_worker_for_no_more_than_64_kib(serve, within):
    server = serve(ONE, 1, 2)
    with server.connect() as sending:
        sending.sendall(REFUSED_TYPE)
        begins = time.monotonic()

        def pour():
            """Sends for three seconds, or until its connection is closed."""
            with contextlib.suppress(OSError):
                while time.monotonic() < begins + 3:
                    sending.sendall(b"b" * 8_192)
                    time.sleep(0.02)

        thread = threading.Thread(target=pour, daemon=True)
        thread.start()
        found = checked(server)
        # Of 64 KiB in eight parts none comes more than a tenth of a second after the one before, or it is waited for no more.
        within.took(time.monotonic() - begins, 1.5)
        assert found.endswith(SERVES)
        thread.join()
    assert server.end() == (0, ["call 0 http 415", "call 1 status 0", "journal 1"], "")


# Watches, beside the orders after `go`.

# A Watch that opens before the orders is left by its client after three statuses. One that opens between them or after them ends.
TOLD = [["SERVING", "NOT_SERVING", "SERVING"], ["NOT_SERVING", "SERVING", "grpc-status 14 watch ended"],
        ["SERVING", "grpc-status 14 watch ended"]]


def test_orders_are_made_beside_a_watch_a_refused_request_and_a_client_that_is_silent_and_the_journal_has_those_that_were_made(serve):
    server = serve("catalogue a -\nmax 10\nregister a manual\ngo\ndown a\ndown zz\nup a\n", 2, 3)
    with server.connect():
        watched = server.ask("--name", "a", "--watch", "3")
        assert watched in TOLD
        with server.connect() as refused:
            refused.sendall(REFUSED_TYPE)
            assert rest_of(refused).startswith(b"HTTP/1.1 415 ")
    code, lines, _ = server.end()
    told = len([line for line in watched if line.endswith("SERVING")])
    assert (code, ends(lines)) == (0, ["fault read", "http 415", f"watch {told}"])
    assert lines[-1] == "journal 3"


def test_each_status_that_a_watch_beside_many_orders_is_told_is_another_and_the_last_is_that_of_the_last_order(serve):
    # As many orders as a script has room for set `a` down and up in turn, and down at last. A Watch tells each status from its opening on.
    # That comes in the middle of the orders, where they are not over by then: it is tried until one is told of hundreds.
    orders = "down a\nup a\n" * 5_400 + "down a\n"
    counts = []
    while max(counts, default=0) < 600 and len(counts) < 50:
        server = serve(f"catalogue a -\nmax 20000\nregister a manual\ngo\n{orders}", 1, 1)
        with contextlib.closing(server.watch()) as watch:
            told = watch.rest()
        counts.append(len(told))
        assert told and told == [2 - place % 2 for place in range(len(told))][::-1]
        assert server.end() == (0, [f"call 0 watch {len(told)}", "journal 10802"], "")
    assert counts[-1] >= 600


# The last order brings a status that no other brings. A Watch that has a look less than there are orders after its opening is not told it.
UNKNOWN_AND_END = b"5\r\n\0\0\0\0\0\r\n" + WATCH_END
ORDERS = "fail a\npass a\n" * 4_600 + "resume\n"
UNKNOWN_AT_LAST = f"catalogue a -\nmax 20000\nregister a threshold 1 1 unknown\npass a\ngo\n{ORDERS}"


@pytest.mark.timeout(300)  # a try takes two seconds where the program is compiled with memory checks
def test_each_watch_beside_many_orders_is_told_the_status_that_the_last_of_them_alone_brings(serve):
    between, delay, begins = 0, 0.001, time.monotonic()
    for _ in range(50):
        last = serve(UNKNOWN_AT_LAST, 1, 1)
        time.sleep(delay)
        with contextlib.closing(last.watch()) as watch:
            *told, rest = watch.rest() or [b""]
        between += 10 < len(told) < 9_000
        delay *= 2 if len(told) >= 9_000 else 0.5 if len(told) <= 10 else 1
        assert (told, rest) == ([1 + place % 2 for place in range(len(told))][::-1], UNKNOWN_AND_END)
        assert last.end() == (0, [f"call 0 watch {len(told) + 1}", "journal 9203"], "")
        if between == 8 or between and time.monotonic() - begins > 2 * PATIENCE:
            break
    assert between > 0  # some of them open between the orders


def test_a_watch_that_looks_as_soon_as_it_is_woken_is_told_the_status_of_the_last_order_too(serve):
    # The thread that makes the orders, which is the first, comes after all others on its processor: a Watch that waits looks as soon as it is
    # woken. One that is woken before an order, and not after it, is not told the last. Where other work has the processor such a thread has
    # next to nothing of it, a third of a hundredth, and then one of them is enough.
    processor, beside, begins = {min(os.sched_getaffinity(0))}, 0, time.monotonic()
    for _ in range(20):
        last = serve(UNKNOWN_AT_LAST, 1, 1)
        freeze(last.process)
        for thread in os.listdir(f"/proc/{last.process.pid}/task"):
            os.sched_setaffinity(int(thread), processor)
        os.sched_setscheduler(last.process.pid, os.SCHED_IDLE, os.sched_param(0))
        with last.connect() as client:
            client.sendall(call("Watch", "a"))
            thaw(last.process)
            told = rest_of(client).partition(b"\r\n\r\n")[2]
        beside += told.count(MESSAGE) > 100
        assert told.endswith(UNKNOWN_AND_END)
        assert last.end()[0] == 0
        if beside == 4 or beside and time.monotonic() - begins > PATIENCE:
            break
    assert beside > 0  # it is told of those before it


@pytest.mark.parametrize("script, fault", rows([
    ("catalogue a -\nmax 1\n", "bind"), ("catalogue a -\nmax 1\nregister a manual\nregister - depends a\ngo\nup a\n", "bind"),
    ("catalogue a -\nmax 1\ncheck a\n", "script line 3"), ("catalogue a\n", "catalogue fault 5")], lambda script, _: script))
def test_the_faults_of_a_script_come_before_that_of_a_port_that_is_taken(serve, script, fault):
    with socket.create_server(("127.0.0.1", 0)) as taken:
        late = serve(script, 1, 1, taken.getsockname()[1])
        assert (late.first, *late.end()) == ("", 1, [], f"healthd: {fault}\n")
