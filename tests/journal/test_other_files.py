"""A file that failed is opened anew, and goes on where it is the journal's. Another file that stands at its path by then is left alone."""
import contextlib
import fcntl
import os
import shutil
import time

import pytest

from support.journal import NAMES, NOT_STORED, SETUP, file_of, read, title, write


def is_free(path):
    """Whether nobody has the lock of the file there."""
    with open(path, "rb") as file:
        try:
            fcntl.flock(file, fcntl.LOCK_EX | fcntl.LOCK_NB)
        except BlockingIOError:
            return False
    return True


@contextlib.contextmanager
def moved(journal):
    """Does what it is used for while the journal is at another path, where it is locked still."""
    aside = f"{journal}-aside"
    os.rename(journal, aside)
    yield
    assert not is_free(aside)
    os.rename(aside, journal)


def is_refused(server):
    time.sleep(1.05)  # it is not stored, though the file may be opened anew by then
    assert server.tell("up", "a") == NOT_STORED


@pytest.mark.parametrize("data", [
    pytest.param(b"\2 of another", id="somebody else's file"), pytest.param(file_of(title(3), *NAMES, *SETUP), id="a shorter journal"),
    pytest.param(b"\1\3abc", id="a damaged file"),
])
def test_a_change_is_refused_where_another_file_is_which_is_not_written_to_nor_locked(failed, journal, goes_on, data):
    with moved(journal):
        write(journal, data)
        is_refused(failed)
        assert read(journal) == data
        assert is_free(journal)
    goes_on(failed)


def test_a_change_is_refused_where_no_file_is_and_none_is_made(failed, journal, goes_on):
    with moved(journal):
        is_refused(failed)
        assert not os.path.exists(journal)
    goes_on(failed)


def test_a_change_is_refused_where_a_folder_is(failed, journal, goes_on):
    with moved(journal):
        os.mkdir(journal)
        is_refused(failed)
        os.rmdir(journal)
    goes_on(failed)


def test_a_copy_of_the_journal_is_gone_on_with_and_locked_and_the_file_before_is_not(failed, folder, journal, goes_on):
    os.rename(journal, f"{folder}/aside")
    shutil.copyfile(f"{folder}/aside", journal)
    goes_on(failed)
    assert is_free(f"{folder}/aside") and not is_free(journal)
