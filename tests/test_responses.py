"""What `ask` makes of a response: its head, as RFC 9112 has it, says where its body ends, by a length or by chunks."""
import socket
import threading

import pytest

from support.wire import OK, SERVING, status

SERVES, SERVES_NOT, NOTHING = status(SERVING), status(2), b"\0\0\0\0\0"
BODY = SERVES + OK
START, CHUNKED = b"HTTP/1.1 200 OK\r\n", b"HTTP/1.1 200 OK\r\ntransfer-encoding: chunked\r\n\r\n"
LENGTH = b"content-length: 27\r\n\r\n"
CHUNK, END = b"1b\r\n" + BODY, b"\r\n0\r\n\r\n"
TOLD, BAD, READ = (0, "SERVING\ngrpc-status 0\n", ""), (1, "", "healthd: bad response\n"), (1, "", "healthd: read\n")


def http(code):
    return 1, "", f"healthd: http {code}\n"


def watched(*statuses):
    """A Watch ends with these statuses."""
    return 0, "".join(f"{one}\n" for one in statuses), ""


def watched_until_bad(*statuses):
    """A Watch is told these statuses, and then something that no response has."""
    return 1, watched(*statuses)[1], BAD[2]


def chunks(size):
    """The body in chunks of so many bytes, the last of which may be shorter."""
    parts = [BODY[at:at + size] for at in range(0, len(BODY), size)]
    return b"".join(b"%x\r\n" % len(part) + part + b"\r\n" for part in parts)


def sized(body):
    return START + b"content-length: %d\r\n\r\n" % len(body) + body


def named(rows):
    """A table whose rows begin with their names."""
    return [pytest.param(*row, id=name) for name, *row in rows]


@pytest.fixture
def asked(program):
    """The exit status of an `ask` that has this response and no byte more, and what it prints and says."""
    def ask(response, *options):
        with socket.create_server(("127.0.0.1", 0)) as listener:
            def serve():
                client, _ = listener.accept()
                with client:
                    request = b""
                    while not request.endswith(b"\r\n\r\n" + NOTHING):
                        request += client.recv(65536)
                    try:
                        client.sendall(response)
                    except OSError:
                        pass

            thread = threading.Thread(target=serve, daemon=True)
            thread.start()
            ran = program.run("ask", "--port", str(listener.getsockname()[1]), *options, timeout=20)
            thread.join(20)
        return ran.returncode, ran.stdout, ran.stderr
    return ask


# Heads of a response that a Check is told by, and what else it may come to.
HEADS = [
    ("a body of a length", START + LENGTH + BODY + b"more", TOLD),
    ("capitals, tabs and spaces", START + b"Content-Length:\t 27 \t\r\n\r\n" + BODY + b"more", TOLD),
    ("a length with zeros before it", START + b"content-length: 000000000000000027\r\n\r\n" + BODY + b"more", TOLD),
    # neither the reason, the minor version nor the content type is looked at
    ("no reason", b"HTTP/1.1 200\r\n" + LENGTH + BODY + b"more", TOLD),
    ("another reason", b"HTTP/1.1 200 Not Found\r\n" + LENGTH + BODY + b"more", TOLD),
    ("another minor version", b"HTTP/1.0 200 OK\r\n" + LENGTH + BODY + b"more", TOLD),
    ("another content type", START + b"content-type: text/html\r\n" + LENGTH + BODY + b"more", TOLD),
    ("another coding than chunks", START + b"transfer-encoding: identity\r\n" + LENGTH + BODY + b"more", TOLD),
    ("a body in chunks", CHUNKED + CHUNK + END, TOLD),
    ("chunks, with capitals and a tab", START + b"Transfer-Encoding:\tChunked \r\n\r\n" + CHUNK + END, TOLD),
    ("chunks after another coding", START + b"transfer-encoding: identity\r\ntransfer-encoding: chunked\r\n\r\n" + CHUNK + END, TOLD),
    ("chunks count before a length", START + b"content-length: 5\r\ntransfer-encoding: chunked\r\n\r\n" + CHUNK + END, TOLD),
    ("chunks count before a bad length", START + b"transfer-encoding: chunked\r\ncontent-length: x\r\n\r\n" + CHUNK + END, TOLD),
    ("chunks count before two lengths",
     START + b"transfer-encoding: chunked\r\ncontent-length: 5\r\ncontent-length: 6\r\n\r\n" + CHUNK + END, TOLD),
    ("32 header lines", START + b"a: b\r\n" * 31 + LENGTH + BODY, TOLD),
    ("33 header lines", START + b"a: b\r\n" * 32 + LENGTH + BODY, BAD),
    ("34 line feeds", b"\n" * 31 + START + LENGTH + BODY, TOLD),
    ("35 line feeds", b"\n" * 32 + START + LENGTH + BODY, BAD),
    ("a head of 8192 bytes", START + b"content-length: 27\r\na: " + b"b" * 8_148 + b"\r\n\r\n" + BODY, TOLD),
    ("a head of 8193 bytes", START + b"content-length: 27\r\na: " + b"b" * 8_148 + b"c\r\n\r\n", BAD),
    ("a head that does not end", START + b"content-length: 27\r\na: " + b"b" * 8_152 + b"more", BAD),
    # the input ends within the head
    ("no byte", b"", READ),
    ("the input ends within the first line", b"HTTP/1.1 200", READ),
    ("the input ends before the last byte of the head", START + b"content-length: 27\r\n\r", READ),
]

# Bodies in chunks, as a Check is told by them.
CHUNKS = [
    *((f"chunks of {size}", CHUNKED + chunks(size) + b"0\r\n\r\n", TOLD) for size in (1, 2, 5, 6, 7, 13, 26)),
    # each spelling of a line of a chunk; the longest has 64 bytes
    *((f"the line of a chunk is {name}", CHUNKED + line + b"\r\n" + BODY + END, TOLD) for name, line in (
        ("1B", b"1B"), ("000000000000001b", b"000000000000001b"), ("1b, a space and a tab", b"1b \t"), ("1b;", b"1b;"),
        ("1b;name and value; other", b'1b;name="value"; other'), ("1b ; and bytes that are no text", b"1b ;\x01\xff"),
        ("of 62 bytes and its end", b"1b;" + b"x" * 59))),
    ("the line of a chunk is of 63 bytes and its end", CHUNKED + b"1b;" + b"x" * 60 + b"\r\n" + BODY + END, BAD),
    # what comes after the chunk of the trailers is not read
    *((f"after the trailers comes {name}", CHUNKED + CHUNK + more, TOLD) for name, more in (
        ("nothing", b""), ("x", b"x"), ("a chunk of x", b"\r\n1\r\nx"), ("a chunk of a message", b"\r\n7\r\n" + SERVES))),
    # a Check may not be without trailers
    ("chunks of nothing", CHUNKED + b"0\r\n\r\n", BAD),
    ("chunks without trailers", CHUNKED + b"7\r\n" + SERVES + END, BAD),
    *((f"the input ends {name}", CHUNKED + cut, READ) for name, cut in (
        ("before the first chunk", b""), ("within the line of a chunk", b"1"), ("within the end of that line", b"1b\r"),
        ("within a chunk", b"1b\r\n" + SERVES + b"\x80\0"), ("before the end of a chunk", b"7\r\n" + SERVES),
        ("within the end of a chunk", b"7\r\n" + SERVES + b"\r"), ("before the trailers", b"7\r\n" + SERVES + b"\r\n14"))),
]


@pytest.mark.parametrize("response, expected", named(HEADS + CHUNKS))
def test_a_check_is_told_by_a_head_and_by_chunks(asked, response, expected):
    assert asked(response) == expected


# Heads that refuse a Check and a Watch.
REFUSED = [
    # another status than 200, whatever else the head says
    ("404", b"HTTP/1.1 404 Not Found\r\n\r\n", http(404)),
    ("415 with a length of 0", b"HTTP/1.1 415 Unsupported Media Type\r\nconnection: close\r\ncontent-length: 0\r\n\r\n", http(415)),
    ("503 with a bad length", b"HTTP/1.1 503 Service Unavailable\r\ncontent-length: x\r\n\r\n", http(503)),
    ("201 with a body", b"HTTP/1.1 201 Created\r\n" + LENGTH, http(201)),
    ("100", b"HTTP/1.1 100 Continue\r\n\r\n", http(100)),
    ("999 without a reason", b"HTTP/1.0 999 \r\n\r\n", http(999)),
    # no head of a response, or one that does not tell where its body ends
    ("an empty head", b"\r\n\r\n", BAD),
    ("a request", b"GET / HTTP/1.1\r\n\r\n", BAD),
    ("another protocol", b"SSH-2.0-OpenSSH_9.6\r\n\r\n", BAD),
    ("another major version", b"HTTP/2.0 200 OK\r\n" + LENGTH, BAD),
    ("a status of two digits", b"HTTP/1.1 20 OK\r\n" + LENGTH, BAD),
    ("a status of four digits", b"HTTP/1.1 2000 OK\r\n" + LENGTH, BAD),
    ("a header line without a colon", START + b"content-length 27\r\n\r\n", BAD),
    ("the head ends before its last four bytes", b"HTTP/1.1 200 OK\ncontent-length: 27\n\n\r\n\r\n", BAD),
    ("no length and no chunks", START + b"\r\n", BAD),
    ("no length and another coding", START + b"transfer-encoding: identity\r\n\r\n", BAD),
    ("two codings in one line", START + b"transfer-encoding: gzip, chunked\r\n\r\n", BAD),
    *((f"a length of {name}", START + b"content-length:" + length + b"\r\n\r\n", BAD) for name, length in (
        ("no byte", b""), ("x", b" x"), ("-1", b" -1"), ("+27", b" +27"), ("27, 27", b" 27, 27"), ("27 27", b" 27 27"), ("0x1b", b" 0x1b"),
        ("19 digits", b" 0000000000000000027"))),
    ("two lengths that are the same", START + b"content-length: 27\r\nContent-Length: 27\r\n\r\n", BAD),
    # over 1,048,576
    *((f"a length of {length.decode()}", START + b"content-length: " + length + b"\r\n\r\n", BAD)
      for length in (b"1048577", b"4294967323", b"999999999999999999")),
]


@pytest.mark.parametrize("options", [(), ("--watch", "1000")], ids=["check", "watch"])
@pytest.mark.parametrize("head, expected", named(REFUSED))
def test_a_head_refuses_a_check_and_a_watch(asked, head, expected, options):
    assert asked(head + BODY, *options) == expected


# Chunks that no body of a response to a call has, and what a Watch is told before them.
NO_CHUNKS = [
    # no size, and more digits than a size may have
    *((f"the line of a chunk is {name}", line + b"\r\n", []) for name, line in (
        ("x", b"x"), ("empty", b""), ("a space and 7", b" 7"), (";x", b";x"), ("-7", b"-7"), ("0x7", b"0x7"), ("17 digits", b"00000000000000007"))),
    # no end of the line where it has to be
    ("7 7", b"7 7\r\n", []),
    ("a line ends in LF", b"7\n" + SERVES, []),
    ("a line ends in CR CR LF", b"7\r\r\n", []),
    ("a line feed in an extension", b"7;a\nb\r\n", []),
    # content of over 1,099,511,627,776 bytes
    ("a chunk of 10000000001", b"10000000001\r\n" + NOTHING, []),
    ("a chunk of ffffffffffffffff", b"ffffffffffffffff\r\n\0", []),
    ("a chunk of fffffffffc after one of 5", b"5\r\n" + NOTHING + b"\r\nfffffffffc\r\n\0", ["UNKNOWN"]),
    # no end of a chunk
    ("xx at the end of a chunk", b"5\r\n" + NOTHING + b"xx7\r\n", ["UNKNOWN"]),
    ("LF LF at the end of a chunk", b"5\r\n" + NOTHING + b"\n\n7\r\n", ["UNKNOWN"]),
    ("a chunk that is longer than its size", b"2\r\n" + NOTHING + b"\r\n", []),
    # the body ends within a frame
    ("the body ends after a byte of a frame", b"1\r\n\0" + END, []),
    ("the body ends within a message", b"6\r\n\0\0\0\0\2\x08" + END, []),
    # bytes after the trailers in their chunk
    ("a line feed after the trailers", b"15\r\n" + OK + b"\n" + END, []),
    ("a zero after trailers in two chunks", b"a\r\n\x80\0\0\0\x0fgrpc-\r\n0b\r\nstatus:0\r\n\0\r\n", []),
    ("trailers without a status", b"5\r\n\x80\0\0\0\0" + END, []),
]


@pytest.mark.parametrize("body, statuses", named(NO_CHUNKS))
def test_bad_chunks_refuse_a_check(asked, body, statuses):
    assert asked(CHUNKED + body) == BAD


@pytest.mark.parametrize("body, statuses", named(NO_CHUNKS))
def test_bad_chunks_end_a_watch_after_what_comes_before_them(asked, body, statuses):
    assert asked(CHUNKED + body, "--watch", "1000") == watched_until_bad(*statuses)


# A Watch of an unknown service, as the server sends it: its first status is enough, or comes before its end.
ENDED = b"7\r\n" + status(3) + b"\r\n2f\r\n\x80\0\0\0\x2agrpc-status:14\r\ngrpc-message:watch ended\r\n" + END
TWO = b"e\r\n" + SERVES + SERVES_NOT + b"\r\n"
# Watches of so many statuses, in chunks.
WATCHES = [
    ("the first of two", TWO, 1, ["SERVING"]),
    ("both of two", TWO, 2, ["SERVING", "NOT_SERVING"]),
    ("a message whose chunk has no end yet", b"7\r\n" + SERVES, 1, ["SERVING"]),
    ("the chunks end without trailers", b"7\r\n" + SERVES + END, 2, ["SERVING"]),
    ("no chunk and a line after them", b"00;x\r\na: b\r\n\r\n", 1, []),
    ("the first of an unknown service", ENDED, 1, ["SERVICE_UNKNOWN"]),
    ("the first of an unknown service and its end", ENDED, 2, ["SERVICE_UNKNOWN", "grpc-status 14 watch ended"]),
    ("all of an unknown service", ENDED, 1000, ["SERVICE_UNKNOWN", "grpc-status 14 watch ended"]),
]


@pytest.mark.parametrize("body, count, lines", named(WATCHES))
def test_a_watch_of_so_many_statuses_is_told_by_chunks(asked, body, count, lines):
    assert asked(CHUNKED + body, "--watch", str(count)) == watched(*lines)


# Bodies by their length, as a Check is told by them: all messages that come before the trailers.
THREE = SERVES + SERVES_NOT + SERVES
CHECKED = [
    ("two messages", THREE[:14] + OK, ["SERVING", "NOT_SERVING", "grpc-status 0"]),
    ("three messages", THREE + OK, ["SERVING", "NOT_SERVING", "SERVING", "grpc-status 0"]),
    ("UNKNOWN is no byte", NOTHING + OK, ["UNKNOWN", "grpc-status 0"]),
    # a status that this program doesn't know is told by its number
    ("a status that is not known", SERVES[:-1] + b"\5" + OK, ["status 5", "grpc-status 0"]),
    ("the largest status", b"\0\0\0\0\x0b\x08" + b"\xff" * 9 + b"\1" + OK, ["status 18446744073709551615", "grpc-status 0"]),
    ("an unknown field, and the last of two statuses counts", b"\0\0\0\0\6\x08\2\x48\5\x08\1" + OK, ["SERVING", "grpc-status 0"]),
    ("no message, and a text that is told as it is", b"\x80\0\0\0\x25grpc-message:\xc3\xbf%41\r\ngrpc-status:00013", ["grpc-status 13 \u00ff%41"]),
]


@pytest.mark.parametrize("body, lines", named(CHECKED))
def test_a_check_is_told_by_a_body_of_a_length_and_nothing_after_it_is_read(asked, body, lines):
    assert asked(sized(body) + b"more") == watched(*lines)


# Bodies that a Check may not have, and a Watch may: without trailers it was cut off.
CUT_OFF = [("no byte", b"", []), ("a message", SERVES, ["SERVING"]), ("UNKNOWN twice", NOTHING * 2, ["UNKNOWN"] * 2),
           ("two messages", THREE[:14], ["SERVING", "NOT_SERVING"])]


@pytest.mark.parametrize("body, statuses", named(CUT_OFF))
def test_a_check_may_not_be_cut_off(asked, body, statuses):
    assert asked(sized(body)) == BAD


@pytest.mark.parametrize("body, statuses", named(CUT_OFF))
def test_a_watch_may_be_cut_off(asked, body, statuses):
    assert asked(sized(body), "--watch", "1000") == watched(*statuses)


# Bodies that no response to a call has, and what a Watch is told before the fault.
NO_BODIES = [
    # the flag of a compressed message or of compressed trailers, or no flag
    *((f"a message of the flag {flag:#04x}", bytes([flag]) + SERVES[1:], []) for flag in (0x01, 0x02, 0x7f, 0x81, 0xff)),
    ("trailers of the flag 0x81", b"\x81" + OK[1:], []),
    # the body ends within a frame, which may come after whole ones
    *((f"{count} bytes of a message", SERVES[:count], []) for count in range(1, 7)),
    ("trailers that lack a byte", b"\x80\0\0\0\x10grpc-status:0\r\n", []),
    *((f"a message and {count} bytes of another", SERVES + SERVES[:count], ["SERVING"]) for count in range(1, 7)),
    ("a message and one of 4294967295 bytes", SERVES + b"\0\xff\xff\xff\xff\0", ["SERVING"]),
    *((f"two messages and {count} bytes of trailers", THREE[:14] + OK[:count], ["SERVING", "NOT_SERVING"]) for count in (1, 3, 5, 19)),
    ("a message that is cut", b"\0\0\0\0\1\x08", []),
    ("a message with a bad tag", b"\0\0\0\0\1\x0b" + OK, []),
    ("a message with a number that does not end", b"\0\0\0\0\x0b\x08" + b"\xff" * 10, []),
    *((f"trailers {name}", b"\x80" + len(block).to_bytes(4, "big") + block, []) for name, block in (
        ("of no byte", b""), ("without a status", b"grpc-message:x\r\n"), ("without a colon", b"a\r\nb"), ("of status x", b"grpc-status:x\r\n"),
        ("of a status of ten digits", b"grpc-status:0000000000\r\n"))),
    *((f"trailers and {name} after them", OK + more, []) for name, more in (("a line feed", b"\n"), ("a message", NOTHING), ("trailers", OK))),
    ("a message, trailers and a line feed", SERVES + OK + b"\n", ["SERVING"]),
]


@pytest.mark.parametrize("body, statuses", named(NO_BODIES))
def test_a_bad_body_refuses_a_check(asked, body, statuses):
    assert asked(sized(body)) == BAD


@pytest.mark.parametrize("body, statuses", named(NO_BODIES))
def test_a_bad_body_ends_a_watch_after_what_comes_before_the_fault(asked, body, statuses):
    assert asked(sized(body), "--watch", "1000") == watched_until_bad(*statuses)


# Watches of so many statuses, by the length of their bodies.
FOLLOWED = [
    *((f"{count} of two messages and trailers", THREE[:14] + OK, count, ["SERVING", "NOT_SERVING", "grpc-status 0"][:count]) for count in (1, 2, 3)),
    *((f"{count} of three messages and trailers", THREE + OK, count, ["SERVING", "NOT_SERVING", "SERVING", "grpc-status 0"][:count])
      for count in (1, 2, 3, 4)),
    ("three of three", THREE, 3, ["SERVING", "NOT_SERVING", "SERVING"]),
    ("UNKNOWN", NOTHING, 1, ["UNKNOWN"]),
    ("the trailers", OK, 1, ["grpc-status 0"]),
    ("a status that is not known", SERVES[:-1] + b"\5", 1, ["status 5"]),
    ("a message before a bad flag", SERVES + b"\xff", 1, ["SERVING"]),
    ("an unknown service", b"\x80\0\0\0\x2dgrpc-status:5\r\ngrpc-message:unknown service\r\n", 1, ["grpc-status 5 unknown service"]),
]


@pytest.mark.parametrize("body, count, lines", named(FOLLOWED))
def test_what_comes_after_the_last_of_so_many_statuses_is_not_looked_at(asked, body, count, lines):
    assert asked(sized(body) + b"more", "--watch", str(count)) == watched(*lines)


def test_a_body_of_the_greatest_length_may_come(asked):
    """A length of one byte more is refused before anything of it is read: see the heads that refuse."""
    assert asked(START + b"content-length: 1048576\r\n\r\n") == READ
