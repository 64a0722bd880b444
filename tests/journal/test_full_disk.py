"""A journal whose disk takes no more. A limit on the length of files stands for that, which the kernel answers as it answers a full disk."""
import os
import time

from support.journal import NOT_STORED, NOT_WRITABLE, SHUTDOWN, file_of, first_shown, read, starts_in
from support.process import without_room
from support.server import SCRIPT
from support.waiting import until
from support.wire import NOT_SERVING, status


def test_a_change_that_cannot_be_stored_is_refused_and_is_none_and_nobody_else_gets_the_file(limited, journal, fault, kept):
    with without_room(limited.process, journal):
        assert limited.tell("up", "a") == NOT_STORED
        assert limited.stats()["writable"] == 0
        assert first_shown(limited) == NOT_WRITABLE
        # The file is opened anew for the next one.
        assert limited.tell("up", "a") == NOT_STORED
        assert limited.tell("list")[0].startswith("a=not_serving") and limited.stats()["entries"] == 4
        assert status(NOT_SERVING) in limited.check()
        assert fault() == f"journal {journal}: in use"
    # There is room again.
    until(lambda: limited.tell("up", "a"), ("done", 0), patience=1.05)
    assert limited.stats()["writable"] == 1
    assert fault() == f"journal {journal}: in use"
    assert [line.split(" ", 2)[2].split(" ", 2)[-1] for line in kept()][-2:] == ["down a: done", "up a: done"]


def test_a_file_that_failed_is_opened_anew_for_the_next_change_and_then_once_a_second_at_most(limited, journal, goes_on):
    with limited.session() as session:
        with without_room(limited.process, journal):
            assert session.ask("up a") == "refused not stored"
            begins = time.monotonic()
            assert session.ask("up a") == "refused not stored"
        told, seconds = session.ask("up a"), time.monotonic() - begins
    assert told == "refused not stored" or seconds >= 1
    goes_on(limited)


def test_what_a_crash_of_the_device_might_leave_after_the_entries_is_taken_back(failed, journal, goes_on):
    with open(journal, "r+b") as file:
        file.seek(starts_in(read(journal))[-1])
        file.write(file_of(SHUTDOWN))
    goes_on(failed)


def test_a_start_whose_setup_cannot_be_stored_leaves_no_file(fault, journal):
    limited = ("/bin/sh", "-c", 'ulimit -f 1; exec /usr/bin/env --ignore-signal=XFSZ "$@"', "sh")
    assert fault(script=SCRIPT + "register a manual\n" * 60, before=limited) == f"journal {journal}: file too large"
    assert not os.path.exists(journal)
