"""Where a file is damaged, as a run and `journal` tell it. Neither makes anything of it then, and it is left as it is."""
import pytest

from support.journal import (DOWN, EPOCH, NAMES, PREFACE, REGISTER, RETIRE, SHUTDOWN, THREE, TWO_LINES, block, blocks, file_of, read, records_in,
                             starts_in, title, write)
from support.lasting import lasting
from support.server import SCRIPT
from support.waiting import until


@pytest.fixture
def damage(common_fault, journal):
    """What a run tells of a file with these bytes, which it leaves as it is."""
    def of(data):
        write(journal, data)
        found = common_fault()
        assert read(journal) == data
        return found.replace(journal, "PATH")
    return of


def damaged(at):
    return f"journal PATH: damaged at byte {at}"


def damaged_to_journal(at):
    return 1, "", f"healthd: {damaged(at)}\n"


# What another program or the disk has made of a file.

@pytest.fixture(scope="module")
def whole(program, tmp_path_factory):
    """A file whose entries were made by the setup, a session and an expiry."""
    path = str(tmp_path_factory.mktemp("journal") / "journal")
    with lasting(program, "--quiet", "--journal", path, script=SCRIPT + "expect db 1\n") as server:
        assert server.tell("down", "a")[0] == "done"
        until(lambda: server.stats()["expired"], 1)
    return read(path)


def test_each_block_has_the_checksum_that_zlib_gives_it(whole):
    records = records_in(whole)
    assert len(records) == 4 + 3 + 3 and whole == file_of(*records)


def flipped(data, at):
    return data[:at] + bytes([data[at] ^ 1]) + data[at + 1:]


def with_last(alter):
    """Alters the last record. Its checksum is right."""
    def make(whole):
        last = starts_in(whole)[-2]
        return whole[:last] + file_of(alter(records_in(whole)[-1])), last
    return make


OTHERS = {
    "somebody else's file": lambda whole: (b"\7" * 20, 0),
    "a first record with another byte": lambda whole: (flipped(whole, 3), 0),
    "a last record with another byte": lambda whole: (flipped(whole, starts_in(whole)[-2] + 4), starts_in(whole)[-2]),
    "a record that is too long": with_last(lambda record: record + b"\0"),
}
# It takes the rules of services to see this, or the names of a catalogue, so `journal` does not.
SEEN_BY_A_RUN = {
    "somebody else's file of zeros": lambda whole: (b"\0\0 somebody else's", 0),
    "a reply that is none": with_last(lambda record: record[:-3] + b"\4" + record[-2:]),
}


@pytest.mark.parametrize("make", [pytest.param(make, id=name) for name, make in {**OTHERS, **SEEN_BY_A_RUN}.items()])
def test_a_run_tells_the_damage_of(damage, whole, make):
    data, at = make(whole)
    assert damage(data) == damaged(at)


@pytest.mark.parametrize("make", [pytest.param(make, id=name) for name, make in OTHERS.items()])
def test_journal_tells_the_damage_of(command, whole, make):
    data, at = make(whole)
    assert command(data) == damaged_to_journal(at)


# What a crash leaves of a batch that is being written is no damage: its gate is closed, and after it is anything. No crash cuts a file within
# a block after its gate, and each byte of one has its part in what the block is.
END = len(THREE) - 1
LAST = END - len(block(RETIRE))


@pytest.mark.parametrize("at", range(LAST + 1, END), ids=lambda at: f"byte {at - LAST}")
def test_journal_tells_damage_of_the_last_block_and_none_of_what_a_crash_leaves_of_it(command, at):
    other, torn = bytearray(THREE), bytearray(THREE[:at + 2])
    other[at] ^= 4
    torn[LAST] = at % 2 * 2  # a closed gate is 0 or anything but 1
    assert command(other) == damaged_to_journal(LAST)
    assert command(THREE[:at]) == damaged_to_journal(LAST)
    assert command(torn) == (0, TWO_LINES, "")


@pytest.mark.parametrize("data, at", [
    pytest.param(THREE[:END], END, id="no gate after the blocks"), pytest.param(THREE[:END] + b"\1", END, id="an open gate alone"),
    pytest.param(b"\1\3", 0, id="a gate and a length"),
])
def test_journal_tells_damage_where_there_is(command, data, at):
    assert command(data) == damaged_to_journal(at)


# The records of a file, and the byte at which the record begins that is none of a journal.

TITLES = {
    "no title": (b"",), "another version": (title(3, version=b"2"),), "a byte after the title": (title(3) + b"\0",), "17 names": (title(17),),
    "fewer records than names": (title(16),), "more entries that stand for older ones than there are": (title(3, 0, 3),)}
# What these say of the history is wrong with the entries after them.
GREAT = {
    "more entries than a history may have": (title(3, (1 << 32) - 2),), "the greatest number of older entries": (title(3, (1 << 64) - 1),)}
SLOTS = {"a registered": b"\0\3\1", "one that is relied on": b"\0\2\2\x08\0", "a retired": b"\1\x0f", "a failed": b"\3\3"}
WRONG = {
    "no bytes": b"", "no change": EPOCH + bytes(4), "half of a session": EPOCH + b"\1\1\0", "half of a mask": EPOCH + b"\0\0\0\0\0\2\2\3",
    "half of a rise": EPOCH + b"\0\0\0\0\0\0\0\2\0\0\0\1\0", "no start": EPOCH + b"\0\0\0\0\0\0\0\2\0\0\0\1\0\0\0",
    "a byte after a shutdown": SHUTDOWN + b"\0", "a byte after a retired slot": EPOCH + b"\0\0\0\0\1\1\0",
    "a byte after a start": EPOCH + b"\0\0\0\0\0\0\0\2\0\0\0\1\0\0\0\0\0", "a byte after a mask": EPOCH + b"\0\0\0\0\0\2\2\3\0\0",
    "nobody who asked": EPOCH + b"\3\0\0\0\6", "a reply 5": EPOCH + b"\0\0\0\5\6", "a change 8": EPOCH + b"\0\0\0\0\x08",
    "a change 8 with a slot": EPOCH + b"\0\0\0\0\x08\0", "a rule 3": EPOCH + b"\0\0\0\0\0\0\3",
    "a start 2": EPOCH + b"\0\0\0\0\0\0\0\2\0\0\0\1\0\0\0\2", "a slot 16": EPOCH + b"\0\0\0\0\1\x10"}
REST = (*PREFACE[1:], REGISTER, DOWN)
NO_RECORD = {
    **{name: ((*first, *REST), 0) for name, first in {**TITLES, **GREAT}.items()},
    "a name twice": ((title(3), b"db", b"db", b""), 0), "no empty name": ((title(2), b"db", b"api"), 0), "no name": ((title(0),), 0),
    "a name that is no text": ((title(3), b"db", b"\xffapi", b"", REGISTER, DOWN), 44),
    **{f"{name} slot without a name": ((*PREFACE, REGISTER, DOWN, EPOCH + bytes(4) + call), 104) for name, call in SLOTS.items()},
    **{f"a record of {name}": ((*PREFACE, record), 59) for name, record in WRONG.items()}}


@pytest.mark.parametrize("records, at", NO_RECORD.values(), ids=NO_RECORD)
def test_journal_tells_damage_where_it_finds(command, records, at):
    assert command(file_of(*records)) == damaged_to_journal(at)


# Two of the entries stand for older ones.
OLDER = (title(3, 7, 2), *NAMES)
FRONTS = {
    **{name: ((*first, *NAMES), 0) for name, first in TITLES.items()}, "an empty record alone": ((b"",), 0),
    "a name missing": ((title(3), b"a", b"db"), 0), "too few entries": (OLDER, 0), "one entry too few": ((*OLDER, SHUTDOWN), 0),
    "a record that is no entry after one": ((title(3), *NAMES, SHUTDOWN, b""), len(blocks(title(3), *NAMES, SHUTDOWN))),
    "a first record that is no entry": ((title(3), *NAMES, bytes(12)), len(blocks(title(3), *NAMES)))}


@pytest.mark.parametrize("records, at", FRONTS.values(), ids=FRONTS)
def test_a_run_tells_damage_where_it_finds(damage, records, at):
    assert damage(file_of(*records)) == damaged(at)
