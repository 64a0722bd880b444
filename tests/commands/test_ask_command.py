"""What `ask` sends to a server of a test's own, and what it makes of the answer."""
import shutil
import subprocess

import pytest

from support.command import ran
from support.hostile import HOSTILE, SAFE
from support.scripted import answering, at_port
from support.wire import request

OK = b"\x80\0\0\0\x0fgrpc-status:0\r\n"
SERVING = b"\0\0\0\0\2\x08\1" + OK
UNKNOWN_SERVICE = b"\x80\0\0\0\x2dgrpc-status:5\r\ngrpc-message:unknown service\r\n"
HEAD = b"HTTP/1.1 200 OK\r\ncontent-type: application/grpc-web+proto\r\nconnection: close\r\ncontent-length: %d\r\n\r\n"
ANSWERED = HEAD % len(SERVING) + SERVING
BAD_RESPONSE = (1, "", "healthd: bad response\n")

# Options, the answer, and what comes of it.
ASKS = {
    "no name": ([], ANSWERED, (0, "SERVING\ngrpc-status 0\n", "")),
    "the empty name": (["--name", "-"], ANSWERED, (0, "SERVING\ngrpc-status 0\n", "")),
    "a name and a status that it has not": (["--name", "a", "--expect", "not_serving"], ANSWERED, (3, "SERVING\ngrpc-status 0\n", "")),
    "an unknown service": ([], HEAD % len(UNKNOWN_SERVICE) + UNKNOWN_SERVICE, (0, "grpc-status 5 unknown service\n", "")),
    "a status of HTTP": ([], b"HTTP/1.1 404 Not Found\r\ncontent-length: 0\r\n\r\n", (1, "", "healthd: http 404\n")),
    "nothing of HTTP": ([], b"nothing of HTTP\r\n\r\n", BAD_RESPONSE),
    "nothing of HTTP, where it has time": (["--timeout", "60"], b"nothing of HTTP\r\n\r\n", BAD_RESPONSE),
}
# Trailers, by the first line of each name, in any case and without the spaces and tabs at the ends of its value.
TRAILERS = {
    "the first message, before the status": (b"grpc-message:a\r\ngrpc-message:b\r\ngrpc-status:2", "grpc-status 2 a\n"),
    "the first status": (b"grpc-status:5\r\ngrpc-status:0\r\ngrpc-message:a\r\n", "grpc-status 5 a\n"),
    "names in any case": (b"GRPC-Message: x\r\na:b\r\ngrpc-status:\t7", "grpc-status 7 x\n"),
    "a name with a space at its end": (b"grpc-status :3\r\ngrpc-status:2\r\ngrpc-message:a", "grpc-status 2 a\n"),
    "spaces and tabs": (b"grpc-message:\t a b: c \t\r\nGrpc-Status: \t14 \r\n", "grpc-status 14 a b: c\n"),
    "zeros before a code": (b"grpc-message:a\r\ngrpc-status:000000007", "grpc-status 7 a\n"),
    "the greatest code": (b"grpc-message:a\r\ngrpc-status:999999999", "grpc-status 999999999 a\n"),
    "the code 0": (b"grpc-status: 0\r\n", "grpc-status 0\n"),
    # what cannot be printed is told by its number
    "a message that cannot be printed": (b"grpc-status:2\r\ngrpc-message:" + HOSTILE, f"grpc-status 2 {SAFE}\n"),
    "a line feed in a message": (b"grpc-status:2\r\ngrpc-message:a\nSERVING", "grpc-status 2 a\\u{a}SERVING\n"),
    # the text comes after a space, also where there is none, and after another code than 0 alone
    "no message": (b"grpc-status:13", "grpc-status 13 \n"), "a message of the code 0": (b"grpc-status:0\r\ngrpc-message:fine", "grpc-status 0\n"),
}
BAD_TRAILERS = {
    "nothing": b"", "an empty line": b"\r\n", "a line without a colon": b"grpc-status:0\r\nab", "an empty line at the end": b"grpc-status:0\r\n\r\n",
    "no status": b"grpc-message:x", "a letter": b"grpc-status:x", "an empty status": b"grpc-status:", "a sign": b"grpc-status:+1",
    "ten digits": b"grpc-status:1234567890", "a CR at the end": b"grpc-status:1\r",
    "a bad status before a good one": b"grpc-status:x\r\ngrpc-status:0\r\n",
}
# The request byte by byte, by each method, for names of which the length takes one byte, two and three, and one outside ASCII.
REQUESTS = {
    "no name": ([], "Check", b""), "a watch": (["--watch", "1"], "Watch", b""), "a name": (["--name", "a"], "Check", b"\x0a\1a"),
    "a watch of a name outside ASCII": (["--name", "zz\u00e9", "--watch", "1"], "Watch", b"\x0a\4zz\xc3\xa9"),
    "a name of 128 bytes": (["--name", "a" * 128], "Check", b"\x0a\x80\1" + b"a" * 128),
    "a name of 100,000 bytes": (["--name", "a" * 100_000], "Check", b"\x0a\xa0\x8d\6" + b"a" * 100_000),
}
# Makes the last word of a command line longer than one may be on Linux: as many bytes as it says.
LONGER = r"""
#define _GNU_SOURCE
#include <dlfcn.h>
#include <stdlib.h>
#include <string.h>

typedef void part(void);
typedef int program(int, char **, char **);

int __libc_start_main(program *run, int count, char **words, part *begin, part *end, part *last, void *stack) {
  int (*start)(program *, int, char **, part *, part *, part *, void *) = dlsym(RTLD_NEXT, "__libc_start_main");
  size_t length = strtoul(words[count - 1], NULL, 10);
  char *word = malloc(length + 1);
  memset(word, 'a', length);
  word[length] = 0;
  words[count - 1] = word;
  return start(run, count, words, begin, end, last, stack);
}
"""


def asked(program, answer, *options, **how):
    """What comes of `ask` at a server that answers this, and what that heard."""
    with at_port(answering(answer)) as scripted:
        return ran(program, "ask", "--port", str(scripted.port), *options, **how), scripted.ended()


def is_asked_for(heard, name):
    """What was heard is a request for a Check of the service of this name."""
    assert heard.startswith(b"POST /grpc.health.v1.Health/Check ") and heard.endswith(b"\r\n\r\n" + request(name))


def in_an_answer(block):
    """Trailers in the answer to a Check."""
    body = b"\x80" + len(block).to_bytes(4, "big") + block
    return HEAD % len(body) + body


@pytest.mark.parametrize("options, answer, expected", ASKS.values(), ids=ASKS)
def test_ask_asks_for_what_its_options_say_and_prints_the_answer(program, options, answer, expected):
    command, heard = asked(program, answer, *options)
    assert command == expected
    is_asked_for(heard, options[1] if options[:1] == ["--name"] else "")


@pytest.mark.parametrize("block, printed", TRAILERS.values(), ids=TRAILERS)
def test_trailers_are_printed(program, block, printed):
    command, heard = asked(program, in_an_answer(block))
    assert command == (0, printed, "")
    is_asked_for(heard, "")


@pytest.mark.parametrize("block", BAD_TRAILERS.values(), ids=BAD_TRAILERS)
def test_trailers_without_a_status_that_can_be_read_are_no_answer(program, block):
    command, heard = asked(program, in_an_answer(block))
    assert command == BAD_RESPONSE
    is_asked_for(heard, "")


@pytest.mark.parametrize("options, method, message", REQUESTS.values(), ids=REQUESTS)
def test_ask_sends_its_request_and_no_more(program, options, method, message):
    command, heard = asked(program, ANSWERED, *options)
    assert command == (0, "SERVING\n" if method == "Watch" else "SERVING\ngrpc-status 0\n", "")
    framed = b"\0" + len(message).to_bytes(4, "big") + message
    assert heard == (f"POST /grpc.health.v1.Health/{method} HTTP/1.1\r\nhost: localhost\r\ncontent-type: application/grpc-web+proto\r\n"
                     f"x-grpc-web: 1\r\ncontent-length: {len(framed)}\r\n\r\n").encode() + framed


@pytest.mark.preload
@pytest.mark.skipif(not shutil.which("cc"), reason="no C compiler")
@pytest.mark.parametrize("length, fault", [(1_048_576, "connect"), (1_048_577, "name too long")])
def test_ask_looks_for_the_length_of_a_name_before_it_connects(program, folder, length, fault):
    library = f"{folder}/longer.so"
    subprocess.run(["cc", "-shared", "-fPIC", "-o", library, "-x", "c", "-"], input=LONGER, text=True, check=True)
    command = ran(program, "ask", "--port", "1", "--name", str(length), before=("env", f"LD_PRELOAD={library}"))
    assert command == (1, "", f"healthd: {fault}\n")


def test_ask_says_where_nothing_can_be_printed(program):
    with open("/dev/full", "w", encoding="utf-8") as full:
        command, _ = asked(program, ANSWERED, stdout=full)
    assert command == (1, "", "healthd: write\n")
