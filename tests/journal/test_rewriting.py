"""A file that has grown long is written anew: it has a few entries then that stand for the older ones, and the newest as they were."""
import itertools
import os
import time

import pytest

from support.journal import LIMIT, NEWEST, SHORT, entries, long_journal, printed, read, records_in, write
from support.lasting import lasting

pytestmark = [pytest.mark.built, pytest.mark.timeout(300)]

CALLS = ("fail", "pass", "fail", "pass")


def parted(lines):
    """The entries that stand for older ones, and the newest ones."""
    older = list(itertools.takewhile(lambda line: line.startswith("- "), lines))
    return older, lines[len(older):]


def numbers(lines):
    return [int(line.split(" ", 1)[0]) for line in lines]


def follow_each_other(found):
    return all(after == before + 1 for before, after in itertools.pairwise(found))


def test_a_start_reads_a_long_file_and_the_next_change_is_made_which_has_it_written_anew(begin, long, journal, record_property):
    begins = time.monotonic()
    server = begin()
    record_property(f"a start with {long} entries", f"{time.monotonic() - begins:.2f} s")
    assert server.stats()["entries"] == long
    assert server.tell("list")[0].startswith("a=not_serving" if long % 2 == 0 else "a=serving")
    begins = time.monotonic()
    assert server.tell("fail", "db")[0] == "done"
    record_property("the change after it", f"{time.monotonic() - begins:.2f} s")
    assert os.path.getsize(journal) < SHORT


# What the file has then.

@pytest.fixture(scope="module")
def written(program, tmp_path_factory):
    """The file of a server that has written it anew at the first of four changes, and the two kinds of its entries."""
    path = str(tmp_path_factory.mktemp("journal") / "journal")
    write(path, long_journal()[0] + b"\0")
    with lasting(program, "--quiet", "--journal", path) as server:
        assert [server.tell(call, "db")[0] for call in CALLS] == ["done"] * 4
        yield path, *parted(printed(program, path))


def test_the_file_is_short_and_has_the_newest_entries_and_what_the_older_ones_come_to(written):
    path, older, newest = written
    assert os.path.getsize(path) < SHORT
    assert NEWEST <= len(newest) <= NEWEST + 4
    assert len(older) < 20


def test_the_entries_that_stand_for_the_older_ones_are_the_fewest_that_come_to_the_same(written):
    _, older, newest = written
    # The entry before the first of the newest ones has set `a` up or down.
    is_down = numbers(newest[:1])[0] % 2 == 0
    calls = ["register a manual", *["down a"] * is_down, "register db threshold 2 1", "fail db", "register - depends a db"]
    assert older == [f"- 1970-01-01T00:00:00.000000Z setup {call}: done" for call in calls]


def test_each_of_the_newest_entries_has_its_number_its_time_and_who_asked(written):
    _, _, newest = written
    count, found = long_journal()[1], numbers(newest)
    assert (found[0], found[-1]) == (count + 4 - len(found), count + 3) and follow_each_other(found)
    strange = [line for number, line in zip(found, newest[:-4])
               if line.split()[1:4] != [f"1970-01-01T00:00:00.{number:06}Z", "session", "1"]]
    assert strange[:3] == []


def test_nobody_else_gets_the_new_file(written, fault):
    path, _, _ = written
    assert fault(path) == f"journal {path}: in use"


def test_it_is_not_written_anew_before_it_is_long_again_and_a_restart_goes_on_from_it(begin, long, kept):
    server = begin()
    with server.session() as session:
        assert session.ask_many("pass db", 104) == ["done"] * 104
    lines, board = kept(), server.tell("list")[0]
    _, newest = parted(lines)
    assert numbers(newest[:1]) == [long + 104 - len(newest)] and len(newest) > NEWEST + 100
    server.kill()
    server = begin()
    assert server.tell("list")[0] == board
    assert server.stats()["entries"] == len(lines)
    assert entries(server)[-1].split(" ", 1)[1] == lines[-1].split(" ", 1)[1]
    assert server.tell("down", "a")[0] == "done" and len(kept()) == len(lines) + 1


# What comes between.

@pytest.mark.parametrize("delay", [0.02, 0.1, 0.2, 0.3, 0.6])
def test_a_file_whose_server_is_killed_while_it_is_written_anew_is_whole(begin, long, journal, kept, record_property, delay):
    server = begin()
    with server.session() as session:
        session.send("".join(f"{call} db\n" for call in CALLS))
        time.sleep(delay)  # it is killed at some moment of this
        server.kill()
    found = numbers(kept()[-NEWEST:])
    assert long - 1 <= found[-1] < long + 4
    assert len(found) == NEWEST and follow_each_other(found)
    record_property("the file is", "the new one" if os.path.getsize(journal) < SHORT else "the old one")


def test_where_it_cannot_be_written_anew_changes_are_made_all_the_same_and_nobody_else_gets_the_file(begin, long, journal, fault):
    os.mkdir(f"{journal}.new")
    server = begin()
    with server.session() as session:
        for call in ("pass", "fail", "pass", "fail"):
            assert session.ask(f"{call} db") == "done"
            assert fault() == f"journal {journal}: in use"
    before, data = long_journal()[0], read(journal)
    has_grown = len(data) > LIMIT and data[:len(before)] == before
    assert has_grown
    assert [record[-3:] for record in records_in(data[len(before):])] == [b"\0\2\1", b"\0\3\1"] * 2
    server.kill()
