"""Which case of a request's head is answered, from the last that is looked for to the first, as docs/reference/protocol.md lists them."""
import socket

import pytest

from support.lasting import lasting
from support.wire import WATCH_HEAD, rest_of

OK, SERVING = b"\x80\0\0\0\x0fgrpc-status:0\r\n", b"\0\0\0\0\2\x08\1"
EMPTY = b"\0\0\0\0\0"
# A request of 8,192 bytes, whose message is the unknown field 9.
LONG = b"\0" + (8_187).to_bytes(4, "big") + b"\x4a\xf8\x3f" + b"a" * 8_184
CHECK, LIST = b"POST /grpc.health.v1.Health/Check HTTP/1.1\r\n", b"POST /grpc.health.v1.Health/List HTTP/1.1\r\n"
WATCH = CHECK.replace(b"Check", b"Watch")
TYPE, CHUNKED, END, X = b"content-type: application/grpc-web+proto\r\n", b"transfer-encoding: chunked\r\n", b"\r\n", b"x: y\r\n"


def status(code, text):
    lines = f"grpc-status:{code}\r\ngrpc-message:{text}\r\n".encode()
    return 200, b"\x80" + len(lines).to_bytes(4, "big") + lines


CHECKED = (200, SERVING + OK)
# What is answered where a body of no byte, which is no message, is read.
READ = status(13, "malformed request")
UNKNOWN, TOO_LARGE = status(12, "unknown method"), status(8, "request too large")
# Heads, which are sent with all that comes after them, and the status of HTTP and the body that they are answered. The last that is looked for
# is first here.
HEADS = {
    "a Check": (CHECK + TYPE + END, READ), "a Watch": (WATCH + TYPE + END, READ), "an empty line before a Check": (END + CHECK + TYPE + END, READ),
    "a type in other case, with a parameter, and tabs at a length": (
        CHECK + b"content-type: Application/gRPC-Web; x=1\r\ncontent-length:\t 5 \t\r\n" + END + EMPTY, CHECKED),
    "a type before another": (CHECK + b"accept: text/html\r\n" + TYPE + b"content-type: text/html\r\n" + END, READ),
    "a length of 18 digits with zeros": (CHECK + TYPE + b"CONTENT-LENGTH:000000000000000005\r\n" + END + EMPTY, CHECKED),
    "a length of 8,192": (CHECK + TYPE + b"content-length: 8192\r\n" + END + LONG, CHECKED),
    "an unknown method with a length": (LIST + TYPE + b"content-length: 5\r\n" + END, UNKNOWN),
    "a method with a query": (CHECK.replace(b"Check", b"Check?x") + TYPE + END, UNKNOWN),
    "a method in lower case": (CHECK.replace(b"Check", b"check") + TYPE + END, UNKNOWN),
    "an unknown method with a length of 9,000": (LIST + TYPE + b"content-length: 9000\r\n" + END, TOO_LARGE),
    "a length of 8,193": (CHECK + TYPE + b"content-length: 8193\r\n" + END, TOO_LARGE),
    "a length of 18 digits": (CHECK + TYPE + b"content-length: 999999999999999999\r\n" + END, TOO_LARGE),
    "chunks, and a length of 9,000": (CHECK + TYPE + b"content-length: 9000\r\n" + CHUNKED + END, (411, b"")),
    "another transfer encoding": (CHECK + TYPE + b"Transfer-Encoding: identity\r\n" + END, (411, b"")),
    "another type, and chunks": (CHECK + b"content-type: text/html\r\n" + CHUNKED + END, (415, b"")),
    "a type that only begins as it has to": (CHECK + b"content-type: application/grpc-web-text\r\n" + END, (415, b"")),
    "another type before a good one": (CHECK + b"content-type: text/html\r\n" + TYPE + END, (415, b"")),
    "no type": (CHECK + END, (415, b"")),
    "GET, without a type, and chunks": (CHECK.replace(b"POST", b"GET") + CHUNKED + END, (405, b"")),
    "post in lower case": (CHECK.replace(b"POST", b"post") + TYPE + END, (405, b"")),
    "HTTP/1.0, GET, chunks and a length of 9,000": (b"GET / HTTP/1.0\r\n" + CHUNKED + b"content-length: 9000\r\n" + END, (505, b"")),
    "a length of 19 digits": (CHECK + TYPE + b"content-length: 9999999999999999999" + END + END, (400, b"")),
    "a length in letters": (CHECK + TYPE + b"content-length: five" + END + END, (400, b"")),
    "two lengths in one line": (CHECK + TYPE + b"content-length: 5, 5" + END + END, (400, b"")),
    "a length of no digit": (CHECK + TYPE + b"content-length:" + END + END, (400, b"")),
    "two lines of a length, with HTTP/1.0": (b"POST / HTTP/1.0\r\ncontent-length: 5\r\nContent-length: 5\r\n" + END, (400, b"")),
    "a space before a colon": (CHECK + b"content-type : application/grpc-web\r\n" + END, (400, b"")),
    "HTTP/2.0": (CHECK.replace(b"1.1", b"2.0") + TYPE + END, (400, b"")), "no version": (CHECK.replace(b" HTTP/1.1", b"") + TYPE + END, (400, b"")),
    "no start line": (b"no start line\r\n" + TYPE + END, (400, b"")),
    # what comes after an empty line is of the head, where that line ends with a line feed alone
    "an empty line that ends with a line feed alone": (b"GET / HTTP/1.1\n\nx\r\n\r\n", (400, b"")),
    "8,191 bytes with an end": (CHECK + TYPE + b"x: " + b"a" * 8_098 + b"\r\n\r\n", READ),
    "8,192 bytes with an end": (CHECK + TYPE + b"x: " + b"a" * 8_099 + b"\r\n\r\n", READ),
    "8,191 bytes without an end": (CHECK + TYPE + b"x: " + b"a" * 8_102, None),
    "8,192 bytes without an end": (CHECK + TYPE + b"x: " + b"a" * 8_103, (431, b"")),
    "8,192 bytes of which the end is cut": (CHECK + TYPE + b"x: " + b"a" * 8_100 + b"\r\n\r", (431, b"")),
    # an empty line before the start line counts as one more
    "32 lines": (CHECK + X * 31 + TYPE + END, READ), "33 lines": (CHECK + X * 32 + TYPE + END, (431, b"")),
    "an empty line, and 31 lines": (END + CHECK + X * 30 + TYPE + END, READ),
    "an empty line, and 32 lines": (END + CHECK + X * 31 + TYPE + END, (431, b"")),
}


def refused(line, more=b""):
    return b"HTTP/1.1 " + line + b"\r\nconnection: close\r\n" + more + b"content-length: 0\r\n\r\n"


def answered(body):
    return (b"HTTP/1.1 200 OK\r\nconnection: close\r\ncontent-type: application/grpc-web+proto\r\ncontent-length: %d\r\n\r\n" % len(body)) + body


FIVE = TYPE + b"content-length: 5\r\n" + END + EMPTY
RESPONSES = {
    "400": (b"\r\n\r\n", refused(b"400 Bad Request")), "405": (b"GET / HTTP/1.1\r\n\r\n", refused(b"405 Method Not Allowed", b"allow: POST\r\n")),
    "411": (CHECK + TYPE + CHUNKED + END, refused(b"411 Length Required")),
    "415": (CHECK + b"content-length: 5\r\n" + END, refused(b"415 Unsupported Media Type")),
    "431": (b"\n" * 33 + b"\r\n\r\n", refused(b"431 Request Header Fields Too Large")),
    "505": (b"GET / HTTP/1.0\r\n\r\n", refused(b"505 HTTP Version Not Supported")),
    "a request that is too large": (CHECK + TYPE + b"content-length: 8193\r\n" + END, answered(status(8, "request too large")[1])),
    "an unknown method": (LIST + FIVE, answered(status(12, "unknown method")[1])),
    "a Watch without a message": (WATCH + TYPE + b"content-length: 0\r\n" + END, answered(READ[1])),
    "a compressed message": (CHECK + FIVE[:-5] + b"\1\0\0\0\0", answered(status(12, "compressed message")[1])),
    "a malformed request": (CHECK + TYPE + b"content-length: 8\r\n" + END + b"\0\0\0\0\3\x0a\2a", answered(READ[1])),
    "a Check": (CHECK + FIVE, answered(SERVING + OK)),
    "an unknown service": (CHECK + TYPE + b"content-length: 9\r\n" + END + b"\0\0\0\0\4\x0a\2zz", answered(status(5, "unknown service")[1])),
}
BEGUN = WATCH_HEAD + b"7\r\n\0\0\0\0\2\x08\1\r\n"


@pytest.fixture(scope="module")
def server(program):
    with lasting(program, script="catalogue -\nregister - manual\n") as server:
        yield server


def response(server, request):
    """All that is answered to these bytes, after which nothing is sent."""
    with server.connect() as client:
        client.sendall(request)
        client.shutdown(socket.SHUT_WR)
        return rest_of(client)


@pytest.mark.parametrize("head, expected", HEADS.values(), ids=HEADS)
def test_the_case_of_a_head_is_answered(server, head, expected):
    front, _, body = response(server, head).partition(b"\r\n\r\n")
    assert ((int(front.split()[1]), body) if front else None) == expected


@pytest.mark.parametrize("sent, expected", RESPONSES.values(), ids=RESPONSES)
def test_each_kind_of_response_is_as_it_is_byte_by_byte(server, sent, expected):
    assert response(server, sent) == expected


def test_the_response_to_a_watch_begins_with_its_head_and_its_first_message(server):
    with server.connect() as client, client.makefile("rb") as answer:
        client.sendall(WATCH + FIVE)
        assert answer.read(len(BEGUN)) == BEGUN
