"""Memory that is refused to the program: each request for it in turn, or all of them for a while."""
import contextlib
import mmap
import struct

from support.waiting import until
from support.wire import SERVING, call, chunk, status

# More requests for memory than an act of a test makes, and more than there can be.
MOST, ALL = 4_000, 1 << 40
SETUP = """catalogue a b c d -
register a manual
register b threshold 2
register c manual
register - depends a b
down c
"""
REFUSED, OUT_OF_MEMORY = "refused no memory", "healthd: out of memory\n"
FIRST = chunk(status(SERVING))
# The threads of a run that wait in a poll: its only loop, the one over sessions and the one that watches over silence.
LOOPS = 3


class Memory:
    """What the library refuse.c shares with a test, where a program is started with `env`."""

    def __init__(self, library, path):
        self.env, self.asked = {"LD_PRELOAD": library, "REFUSE": path}, 0
        with open(path, "w+b") as file:
            file.write(bytes(24))
            file.flush()
            self.shared = mmap.mmap(file.fileno(), 24)

    @contextlib.contextmanager
    def refused(self, first, count=1):
        """Meanwhile the request of this number is refused, and those after it, so many in all."""
        self.order(first, count)
        try:
            yield
        finally:
            self.asked = struct.unpack_from("q", self.shared, 16)[0]
            self.order(0, 0)

    def order(self, first, count):
        # Nothing is refused while the order changes.
        struct.pack_into("q", self.shared, 8, 0)
        struct.pack_into("qqq", self.shared, 0, first, 0, 0)
        struct.pack_into("q", self.shared, 8, count)

    def in_turn(self, act, right, is_refusal):
        """Acts again and again, each time with the next request for memory refused, until no more is wanted. It comes to what is right then,
        and before that to the same or to a refusal. `act` does within what it is given what is to be done without memory. The refusals are
        returned. Because a thread may have had no turn, it acts three times more."""
        seen, number, idle = [], 0, 0
        while idle < 3 and number < MOST:
            found = act(self.refused(number))
            idle = idle + 1 if self.asked <= number else 0
            assert found == right or not idle and is_refusal(found), f"with request {number} for memory refused it came to {found!r}"
            if not idle:
                number += 1
            if found != right:
                seen.append(found)
        assert idle and number, f"{number} requests for memory were refused, and {self.asked} made"
        return seen


def state(session):
    """How many entries there are, and the status of each service."""
    return int(session.ask("board")) >> 32, session.ask("list")


def first_told(client):
    """What a new Watch of `a` is told first, or nothing where its connection is closed before."""
    read = b""
    with contextlib.suppress(ConnectionError):
        client.sendall(call("Watch", "a"))
        while not read.endswith(FIRST) and (part := client.recv(65536)):
            read += part
    return read[-len(FIRST):]


def next_told(watch):
    """The status that a Watch is told next, or nothing where it has ended."""
    try:
        return watch.next()
    except ConnectionResetError:
        return b""


def stopped(server):
    """What a server comes to that is told to stop, unless it ends by itself."""
    with contextlib.suppress(OSError), server.session() as session:
        session.ask("stop")
    return server.end()


def changes_or_not(memory, session, line, back, refusals=(REFUSED,)):
    """A change that is refused leaves the history and all services as they were, and one that is made is as it would be. `back` undoes it."""
    session.ask(back)
    before, right, made = state(session), session.ask(line), state(session)
    session.ask(back)

    def act(refused):
        entries, _ = state(session)
        with refused:
            answer = session.ask(line)
        expected = (entries, before[1]) if answer in refusals else (entries + made[0] - before[0], made[1])
        assert state(session) == expected, f"after {answer}"
        if answer != REFUSED:
            # Where nothing could be stored, the file is opened anew once a second at most.
            until(lambda: session.ask(back), "done")
        return answer

    memory.in_turn(act, right, lambda found: found in refusals)
