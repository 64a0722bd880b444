"""Lines of HTTP end a session over TCP, wherever their bytes are cut; at a Unix socket they are lines like others."""
import contextlib
import socket

import pytest

from support.lasting import lasting
from support.server import port_of
from support.waiting import until

# Two services have names as lines of HTTP have words.
SCRIPT = "catalogue a HTTP/1.1 Host:a -\nregister a threshold 1\nregister HTTP/1.1 threshold 1\nregister Host:a threshold 1\n"
NO_SESSION = b"not a session\n"

# What a browser sends for a page of another origin, with lines of a session after it: each ends at its first line.
HEADERS = (b"Host: 127.0.0.1:8081\r\nConnection: keep-alive\r\nContent-Length: 13\r\nUser-Agent: Mozilla/5.0\r\n"
           b"Content-Type: text/plain;charset=UTF-8\r\nOrigin: http://example.org\r\nAccept: */*\r\n\r\n")
BODY = b"\nfail a\nstop\n"
REQUESTS = {
    "a POST": b"POST / HTTP/1.1\r\n" + HEADERS + BODY,
    "a GET": b"GET /?a%0Astop HTTP/1.1\r\n" + HEADERS + BODY,
    "a preflight": b"OPTIONS / HTTP/1.1\r\n" + HEADERS + BODY,
    "a request of HTTP/1.0": b"POST / HTTP/1.0\r\n" + HEADERS + BODY,
    "a request of HTTP/2": b"PRI * HTTP/2.0\r\n\r\nSM\r\n\r\n" + BODY,
    "a request line without its CR": b"POST / HTTP/1.1\n" + BODY,
    "a method that nobody knows": b"stop / HTTP/1.1\r\n" + BODY,
    "a target that is no text": b"POST /\xff HTTP/1.1\r\n" + BODY,
    "a Host line": b"Host: a\r\n" + BODY,
    "a Host line in lower case": b"host:a\n" + BODY,
    "a Host line in upper case": b"HOST:\n" + BODY,
    "a long Host line": b"Host: " + b"a" * 3_000 + b"\n" + BODY,
    "the longest request line": b"GET /" + b"a" * 1_010 + b" HTTP/1.1\n" + BODY,
    "a handshake of TLS": b"\x16\x03\x01\x02\x00\x01\x00\x01\xfc\x03\x03" + BODY,
    "a handshake of TLS whose length is a line feed": b"\x16\x03\x01\n\n\x01\x00\n\x06\x03\x03" + BODY,
}
CUT = b"POST / HTTP/1.1\r\nHost: a\r\n\r\nfail a\nstop\n"

# Lines that are none of HTTP, and how they are answered at a control place.
LINES = [
    ("GET /", "bad line"), ("GET / HTTP", "bad line"), ("GET / a HTTP/1.1", "bad line"), ("GET /  HTTP/1.1", "bad line"),
    ("Host", "bad line"), ("Host : a", "bad line"), ("Hosts: a", "bad line"), (" Host: a", "bad line"), ("\x16", "bad line"),
    ("fail HTTP/1.1", "done"), ("pass HTTP/1.1", "done"), ("fail Host:a", "done"), ("pass Host:a", "done"),
    ("expect HTTP/1.1 60", "done"), ("expect HTTP/1.1 0", "done"), ("register - depends HTTP/1.1", "done"),
]


@pytest.fixture(scope="module")
def unchanged(program):
    """A server with a control place and a report place that are ports, of which nothing is changed."""
    with lasting(program, "--report", "127.0.0.1:0", control="127.0.0.1:0", script=SCRIPT) as server:
        yield server


@pytest.fixture
def server(start):
    """A server with such places, of which something is changed."""
    return start("--report", "127.0.0.1:0", control="127.0.0.1:0", script=SCRIPT)


@pytest.fixture
def unix(start, folder):
    """A server with a control place and a report place that are paths."""
    return start("--report", f"{folder}/report", script=SCRIPT)


@pytest.fixture(params=["control", "report"])
def place(request, unchanged):
    """A place at which nothing is changed."""
    entries = unchanged.stats()["entries"]
    yield getattr(unchanged, request.param)
    assert unchanged.stats()["entries"] == entries


def unread(ends):
    """How many bytes wait to be read at this end of a connection of TCP, as the system tells it in hexadecimal digits, if it is there."""
    with open("/proc/net/tcp", encoding="ascii") as file:
        rows = [line.split() for line in file]
    return [row[4].partition(":")[2] for row in rows if row[1:3] == ends]


def said(server, place, *pieces):
    """All that the place answers to these pieces, each of which it takes by itself."""
    with server.session(place) as session:
        session.client.setsockopt(socket.IPPROTO_TCP, socket.TCP_NODELAY, 1)
        ends = [f"0100007F:{port:04X}" for port in (port_of(place), session.client.getsockname()[1])]
        # it may be closed before the last
        with contextlib.suppress(BrokenPipeError, ConnectionResetError):
            for piece in pieces:
                session.send(piece)
                until(lambda: unread(ends) in ([], ["00000000"]), True)
        return session.rest()


def said_to_its_end(session, text):
    """All that a session answers to this text, which is all that it says."""
    session.send(text)
    session.say_that_it_is_all()
    return session.rest()


@pytest.mark.parametrize("sent", REQUESTS.values(), ids=REQUESTS)
def test_a_request_is_no_session(unchanged, place, sent):
    assert said(unchanged, place, sent) == NO_SESSION


def test_a_request_that_is_cut_anywhere_is_no_session(unchanged, place):
    answers = {at: said(unchanged, place, CUT[:at], CUT[at:]) for at in range(1, len(CUT))}
    assert answers == {at: NO_SESSION for at in range(1, len(CUT))}


def test_a_request_in_single_bytes_is_no_session(unchanged, place):
    assert said(unchanged, place, *(bytes([byte]) for byte in CUT)) == NO_SESSION


def test_a_request_line_without_its_end_is_no_session(unchanged, place):
    with unchanged.session(place) as session:
        assert said_to_its_end(session, "GET / HTTP/1.1") == NO_SESSION


def test_a_request_line_that_is_too_long_ends_the_session(unchanged, place):
    assert said(unchanged, place, b"GET /" + b"a" * 2_000 + b" HTTP/1.1\n" + BODY) == b"line too long\n"


def test_lines_before_a_host_line_are_taken_and_none_after_it(server):
    entries = server.stats()["entries"]
    assert said(server, server.control, b"fail a\npass a\nHost: a\nfail a\nstop\n") == b"done\ndone\n" + NO_SESSION
    assert server.stats()["entries"] == entries + 2


def test_a_request_line_after_another_line_ends_the_session_too(server):
    entries = server.stats()["entries"]
    assert said(server, server.control, b"list it\nPOST / HTTP/1.1\r\nfail a\nstop\n") == b"bad line\n" + NO_SESSION
    assert server.stats()["entries"] == entries


def test_a_host_line_ends_a_session_of_the_report_place(server):
    entries = server.stats()["entries"]
    assert said(server, server.report, b"stop\nHost: a\nfail a\n") == b"not allowed\n" + NO_SESSION
    assert server.stats()["entries"] == entries


def test_a_line_that_is_none_of_http_is_answered(server):
    with server.session() as session:
        assert [(line, session.ask(line)) for line, _ in LINES] == LINES


def test_tell_says_that_it_was_no_session_and_its_status_is_3(server):
    assert server.tell("GET", "/", "HTTP/1.1") == ("not a session", 3)


# At a Unix socket, which no web page reaches, all is as it was.

def test_a_request_at_a_unix_socket_is_bad_lines(unix):
    with unix.session() as session:
        answers = said_to_its_end(session, b"POST / HTTP/1.1\r\nHost: a\r\n\r\nfail a\ncheck a\n")
    assert answers == b"bad line\nbad line\ndone\nnot serving\n"


def test_a_request_at_the_socket_of_a_report_place_is_not_allowed(unix):
    # The service is down, so that who reports may take it up.
    assert unix.tell("fail", "a") == ("done", 0)
    with unix.session(unix.report) as session:
        answers = said_to_its_end(session, b"POST / HTTP/1.1\r\nHost: a\r\n\r\npass a\ncheck a\n")
    assert answers == b"not allowed\nnot allowed\ndone\nserving\n"
