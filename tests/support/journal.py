"""The file of a journal by its bytes, what `healthd journal` prints of one, and what a server tells of it.

A file is a list of blocks, each of which has a record: first those of its preface, and then its entries. A byte that is not 1 ends it."""
import functools
import itertools
import zlib

# A file with more bytes than this is written anew. So many of its newest entries stay, and it has fewer bytes than that.
LIMIT, NEWEST, SHORT = 16 << 20, 65_536, 3 << 20

NOT_STORED = ("refused not stored", 3)
NOT_WRITABLE = "journal not writable: no change takes effect"


def block(record):
    return b"\1" + bytes([len(record)]) + record + zlib.crc32(record).to_bytes(4, "big")


def blocks(*records):
    return b"".join(map(block, records))


def file_of(*records):
    return blocks(*records) + b"\0"


def starts_in(data):
    """Where each block begins, and where the last one ends."""
    found = [0]
    while data[found[-1]:found[-1] + 1] == b"\1":
        found.append(found[-1] + 6 + data[found[-1] + 1])
    return found


def records_in(data):
    return [data[start + 2:end - 4] for start, end in itertools.pairwise(starts_in(data))]


def title(names, base=0, condensed=0, version=b"1"):
    """The first record: how many entries of the history are not in the file, how many of those in it stand for older ones, how many names follow."""
    return b"healthd journal " + version + base.to_bytes(8, "little") + condensed.to_bytes(4, "little") + bytes([names])


EPOCH = bytes(8)
# The names and the entries of a new journal by the setup of `support.server.SCRIPT`, and one more.
NAMES = (b"a", b"db", b"")
SETUP = (EPOCH + b"\0\0\0\0\0\0\1", EPOCH + b"\0\0\0\0\0\1\0\2\0\0\0\1\0\0\0\0", EPOCH + b"\0\0\0\0\0\2\2\3\0")
SHUTDOWN = EPOCH + b"\0\0\0\0\6"
# Another preface, three entries after it, and what is printed of these.
PREFACE = (title(3), b"db", b"api", b"")
AT, TIME = bytes([128, 53, 248, 23, 36, 97, 6, 0]), "2026-11-26T01:45:09.123456Z"
REGISTER, DOWN, RETIRE = AT + b"\0\7\0\0\0\1\1", AT + b"\1\3\0\0\0\7\0\0\5\1", AT + b"\2\7\0\0\1\1"
THREE = file_of(*PREFACE, REGISTER, DOWN, RETIRE)
TWO_LINES = f"0 {TIME} setup register api manual: done\n1 {TIME} session 3 down api: done\n"
THREE_LINES = f"{TWO_LINES}2 {TIME} expiry retire api: done\n"


def set_by_session(number):
    """The record of a change of `a` by session 1, so many microseconds after the epoch: up where the number is even, and down where it is odd."""
    return number.to_bytes(8, "little") + b"\1\1\0\0\0\5\0\0" + bytes([4 + number % 2, 0])


@functools.cache
def long_journal():
    """The blocks of a journal that takes not one more change without being written anew, and how many entries it has: those of the setup, a
    failure of db, and then changes of a."""
    front = blocks(title(3), *NAMES, *SETUP, EPOCH + b"\1\1\0\0\0\5\0\0\3\1")
    count = 4 + (LIMIT - len(front)) // len(block(set_by_session(0)))
    return front + blocks(*map(set_by_session, range(4, count))), count


def write(path, data):
    with open(path, "wb") as file:
        file.write(data)


def read(path):
    with open(path, "rb") as file:
        return file.read()


def printed(program, path):
    """The entries that `journal` prints of a file."""
    ran = program.run("journal", path)
    assert (ran.returncode, ran.stderr) == (0, "")
    return ran.stdout.splitlines()


def entries(server):
    """The entries that `history` prints of a server."""
    return server.program.run("history", "--control", server.control).stdout.splitlines()


def first_shown(server):
    """What `status` says first."""
    return server.program.run("status", "--control", server.control).stdout.splitlines()[0]
