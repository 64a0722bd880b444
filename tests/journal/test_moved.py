"""A server whose journal was moved away leaves the file alone that is at its path by then. A long file shows it, which is to be written anew."""
import os

import pytest

from support.journal import NOT_STORED, NOT_WRITABLE, SHORT, first_shown, long_journal, write
from support.plain import Numbers
from support.process import freeze, thaw
from support.waiting import until

pytestmark = [pytest.mark.built, pytest.mark.timeout(300)]

# What the path has then to which a journal is moved.
AWAY = "-away"
CAUSES = dict.fromkeys(("bad rule", "full", "no memory", "not listed", "not stored"), 0)


@pytest.fixture
def files(journal):
    """The files at the path of a journal and at that of the one that is to take its place."""
    return lambda: [path for path in (journal, f"{journal}.new") if os.path.exists(path)]


@pytest.fixture
def another(begin, kept, journal, files):
    """Begins another server, whose file is at the path then. Gives it, and what shows that its file is left alone."""
    def run():
        server = begin()
        assert server.tell("down", "a")[0] == "done"
        entries = kept()

        def is_left_alone():
            assert kept() == entries
            assert files() == [journal]
            assert server.tell("up", "a")[0] == "done" and len(kept()) == len(entries) + 1
        return server, is_left_alone
    return run


@pytest.fixture
def moved(start, long, journal):
    """A server whose journal was moved away, and is to be written anew at the next change."""
    server = start("--journal", journal, "--plain", "127.0.0.1:0")
    os.rename(journal, journal + AWAY)
    return server


def is_refused(server):
    assert server.tell("pass", "db") == NOT_STORED


def logged(server, level, message):
    return any(line.endswith(f" {level:5} {message}\n") for line in server.written())


def test_a_change_that_would_have_a_moved_file_written_anew_is_refused_and_none_is_made_and_another_s_is_left_alone(moved, another, files):
    is_refused(moved)
    assert files() == []
    _, is_left_alone = another()
    for _ in range(3):
        is_refused(moved)
    is_left_alone()


def test_a_refused_change_is_told_until_the_file_is_back_and_one_is_stored_which_has_it_written_anew(moved, journal):
    for _ in range(4):
        is_refused(moved)
    assert moved.stats()["writable"] == 0
    numbers = Numbers(moved.plain)
    assert (numbers.others["journal_writable"], numbers.causes) == (0, {**CAUSES, "not stored": 4})
    assert first_shown(moved) == NOT_WRITABLE
    until(lambda: logged(moved, "WARN", "journal not written: its file was moved"), True)
    os.rename(journal + AWAY, journal)
    assert moved.tell("pass", "db") == ("done", 0)
    assert os.path.getsize(journal) < SHORT
    assert moved.stats()["writable"] == 1
    numbers = Numbers(moved.plain)
    assert (numbers.others["journal_writable"], numbers.causes["not stored"]) == (1, 4)
    assert first_shown(moved) != NOT_WRITABLE
    until(lambda: logged(moved, "INFO", "journal written again"), True)


# It is moved while it is written anew: a server that has made the new file is stopped before it puts it in place.

@pytest.fixture
def stopped(begin, journal):
    """Stops a server then. It may be too late, so this is tried again."""
    def stop():
        for _ in range(50):
            write(journal, long_journal()[0] + b"\0")
            server = begin()
            before = os.stat(journal).st_ino
            with server.session() as session:
                session.send("pass db\n")
                while not os.path.exists(f"{journal}.new") and os.stat(journal).st_ino == before:
                    pass
                freeze(server.process)
            if os.stat(journal).st_ino == before:
                return server
            thaw(server.process)
            server.stop()
        raise AssertionError("each server has put the new file in place before it was stopped")
    return stop


def goes_on_without(server):
    """Lets it put the new file in place, where it finds that the journal was moved, and go on. Gives what comes of the next change."""
    thaw(server.process)
    until(lambda: server.stats()["writable"], 1)
    return server.tell("pass", "db")


# Where it was stopped between its look at the path and the rename that follows at once, it puts the file there: so it may take some tries.
TRIES = 5


def test_a_journal_that_is_moved_meanwhile_is_not_put_where_none_is_and_the_next_change_is_refused(stopped, journal, files):
    for _ in range(TRIES):
        server = stopped()
        os.rename(journal, journal + AWAY)
        told = goes_on_without(server)
        if not os.path.exists(journal):
            break
        server.stop()
    assert files() == []
    assert told == NOT_STORED
    server.stop()
    assert not os.path.exists(journal)


def test_a_journal_that_is_moved_meanwhile_is_not_put_where_another_is_and_the_next_change_is_refused(stopped, another, journal):
    for _ in range(TRIES):
        server = stopped()
        os.rename(journal, journal + AWAY)
        other, is_left_alone = another()
        before = os.stat(journal).st_ino
        told = goes_on_without(server)
        if os.stat(journal).st_ino == before:
            break
        server.stop()
        other.kill()
    assert told == NOT_STORED
    is_left_alone()
