"""A log that nobody reads, or somebody late: the server goes on, what finds no room is counted, and what is written is whole."""
import contextlib
import fcntl
import functools
import os
import pty
import re
import select
import socket
import time

import pytest

from support.log import ENDED, each
from support.server import LOGGED
from support.waiting import until
from support.wire import OK

pytestmark = pytest.mark.timed

# What a pipe or a socket takes that nobody reads.
ROOM = 8_192
PATIENCE = 40


@contextlib.contextmanager
def a_pipe(mode=0o600):
    """Where it is read, and where it is written."""
    reader, writer = os.pipe()
    fcntl.fcntl(writer, fcntl.F_SETPIPE_SZ, ROOM)
    os.fchmod(writer, mode)
    with open(reader, "rb", 0) as reading, open(writer, "wb", 0) as writing:
        yield reading, writing


@contextlib.contextmanager
def a_socket():
    near, far = socket.socketpair()
    far.setsockopt(socket.SOL_SOCKET, socket.SO_SNDBUF, ROOM)
    with near, far:
        yield near, far


@contextlib.contextmanager
def a_terminal():
    master, slave = pty.openpty()
    with open(master, "rb", 0) as reading, open(slave, "wb", 0) as writing:
        yield reading, writing


def is_full(writing):
    return not select.select([], [writing], [], 0)[1]


def read_until(reading, is_all=lambda _: False, read=""):
    """What has been read, and what comes until that is all, or nobody is left who writes."""
    ends = time.monotonic() + PATIENCE
    while not is_all(read) and time.monotonic() < ends:
        if select.select([reading], [], [], 0.05)[0]:
            part = os.read(reading.fileno(), 3_000)
            if not part:
                break
            read += part.decode()
    return read


def makes_changes(server, down, up, count):
    with server.session() as session:
        session.send(f"{down}\n{up}\n" * (count // 2))
        assert {session.answer() for _ in range(count)} == {"done"}


@pytest.mark.parametrize("outlet", [a_pipe, a_socket, a_terminal], ids=["a pipe", "a socket", "a terminal"])
def test_where_nobody_reads_it_the_server_goes_on_and_ends(start, within, outlet):
    name = "a" * 120  # the lines of one second are more than a terminal takes
    with outlet() as (reading, writing):
        server = start(script=f"catalogue {name} db -\nregister {name} manual\nregister db threshold 2\nregister - depends {name}\n", err=writing)
        makes_changes(server, f"down {name}", f"up {name}", 400)
        until(lambda: is_full(writing), True)
        makes_changes(server, f"down {name}", f"up {name}", 400)
        assert server.tell("expect", "db", "1") == ("done", 0)
        until(lambda: server.stats()["expired"], 1, PATIENCE)
        with within(5):
            assert server.check(name).endswith(OK)
        with within(10):
            server.stop()
        # Nothing was taken out of it.
        assert is_full(writing)
        writing.close()
        if outlet is a_terminal:
            return  # which may have a part of a line
        read = read_until(reading)
    lines = read.splitlines()
    assert "INFO  serving on " in lines[0] and len(lines) > 9 and len(read) > ROOM // 2
    assert [line for line in lines if not LOGGED.match(line)] == []
    assert read.endswith(")\n")


def test_where_it_is_read_late_it_tells_how_many_lines_were_left_out_and_its_end(start):
    names, left_out = "a b c d e f g h i j k l m n o -", re.compile(r" WARN  \d+ lines left out$", re.MULTILINE)
    with a_pipe() as (reading, writing):
        server = start(script="\n".join([f"catalogue {names}", *each(names, "register {} manual"), ""]), err=writing)
        # Each of them has sixteen lines, which are more in a second than are written.
        makes_changes(server, "shutdown", "resume", 100)
        until(lambda: is_full(writing), True)
        read = read_until(reading, left_out.search)
        server.stop()
        writing.close()
        read = read_until(reading, read=read)
    assert left_out.search(read)
    assert read.endswith(f"Z {ENDED}\n")


# Lines that are longer than what is written in one piece, and more of them than wait.

ESCAPES = ["\x1b" * 127 + letter for letter in "abcdefg"]
LINES = [f"register {ESCAPES[6]} depends {' '.join(ESCAPES[:6])}", f"retire {ESCAPES[6]}"]
PAIRS = 24
BY_NOBODY = {"control": "127.0.0.1:0", "before": ("setpriv", "--reuid=nobody", "--clear-groups") if os.geteuid() == 0 else ()}


def long_line(place):
    """The line of the entry at this place, without its time and without the number of the session."""
    became = ("not_serving -> absent", "absent -> not_serving")[place % 2]
    return f"WARN  {ESCAPES[6]}: {became}, entry {place} (session : {LINES[(place + 1) % 2]})".replace("\x1b", r"\u{1b}")


def descriptors(server, end):
    """By which descriptors above 2 the server has this end open, and whether each of them waits."""
    path, found = f"/proc/{server.process.pid}", []
    for number in os.listdir(f"{path}/fd"):
        with contextlib.suppress(FileNotFoundError):  # it has closed that meanwhile
            if int(number) > 2 and os.path.samestat(os.stat(f"{path}/fd/{number}"), os.fstat(end.fileno())):
                with open(f"{path}/fdinfo/{number}", encoding="utf-8") as file:
                    found.append(not int(re.search(r"flags:\t(\d+)", file.read())[1], 8) & os.O_NONBLOCK)
    return found


def accounted(text):
    """How many lines are written of changes, and how many are told to be missing."""
    missing = re.findall(r" WARN  (\d+) lines? (?:left out|dropped, since nobody took those before)\n", text)
    return text.count(", entry ") + sum(map(int, missing))


@pytest.mark.parametrize("outlet, waits, how", [
    pytest.param(a_pipe, False, {}, id="a pipe"), pytest.param(functools.partial(a_pipe, 0), True, BY_NOBODY, id="another user's pipe"),
    pytest.param(a_socket, True, {}, id="a socket"),
])
def test_what_waits_is_written_whole_and_in_its_order_and_the_others_are_counted(start, within, outlet, waits, how):
    with outlet() as (reading, writing):
        server = start(script=f"catalogue {' '.join(ESCAPES)} -\nregister - manual\n", err=writing, **how)
        # The log has one of its own.
        assert descriptors(server, writing) == [waits]
        makes_changes(server, *LINES, 2 * PAIRS)
        until(lambda: is_full(writing), True)
        writing.close()
        with within(5):
            assert server.check("").endswith(OK)
        read = read_until(reading, lambda text: accounted(text) >= 2 * PAIRS)
        server.stop()
        read = read_until(reading, read=read)
    assert read.endswith(f"{ENDED}\n")
    written = [re.sub(r"\(session \d+:", "(session :", LOGGED.sub("", line)) for line in read.split("\n") if ", entry " in line]
    places = [int(re.search(r", entry (\d+) ", line)[1]) for line in written]
    assert len(places) > 9 and places == sorted(set(places))
    assert written == [long_line(place) for place in places]
    assert accounted(read) == 2 * PAIRS and "lines dropped, since" in read
