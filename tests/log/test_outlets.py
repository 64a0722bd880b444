"""What standard error may be besides a pipe that is read: the file of standard output, a disk that is full, a journal, or nothing."""
import os
import re
import socket
import time

import pytest

from support.log import ENDED, Log, each
from support.process import UNENDED_BY_LIMITS, without_room
from support.server import LOGGED
from support.waiting import until
from support.wire import OK, all_of

DOWN = each("a -", "WARN  {}: serving -> not_serving, entry 3 (session 1: down a)")
UP = each("a -", "INFO  {}: not_serving -> serving, entry 4 (session 2: up a)")


def test_a_file_that_is_standard_output_too_has_all_lines_of_both_and_each_whole(start, folder):
    def found():
        with open(f"{folder}/both", encoding="utf-8") as file:
            return [LOGGED.sub("", line) for line in file.read().splitlines()]

    with open(f"{folder}/both", "w", encoding="utf-8") as both:
        server = start(err=both, out=both)
    assert server.tell("down", "a") == ("done", 0)
    until(lambda: len(found()), 5)
    server.stop()
    assert sorted(found()) == sorted([
        f"listening 127.0.0.1:{server.port}", f"control {server.control}", f"INFO  serving on 127.0.0.1:{server.port}, 3 services, 3 entries",
        *DOWN, ENDED, "journal 4"])


def test_where_standard_error_is_closed_what_is_opened_in_its_place_has_no_line(start):
    server = start(before=("/bin/bash", "-c", 'exec 2>&-; exec "$@"', "sh"))
    with server.session() as session, server.connect() as client:
        assert [session.ask(line) for line in ("down a", "up a")] == ["done"] * 2
        until(lambda: server.stats()["connections"], 1)  # one that it does not hold by its end would be reset
        server.stop()
        assert (session.rest(), all_of(client)) == (b"", b"")


def test_what_a_full_disk_did_not_take_first_in_the_midst_of_a_line_is_written_once_it_does(start):
    server = start(before=UNENDED_BY_LIMITS)
    log, path = Log(server), f"{server.folder}/err"
    size = os.path.getsize(path)
    with without_room(server.process, path, more=10):
        assert server.tell("down", "a") == ("done", 0)
        until(lambda: os.path.getsize(path), size + 10)
        assert server.tell("up", "a") == ("done", 0)
        assert server.check().endswith(OK)
        assert os.path.getsize(path) == size + 10
    log.has(*DOWN, *UP)
    log.ends()


@pytest.mark.parametrize("where", ["a full disk", "a pipe whose reader is gone", "a pipe whose reader goes"])
def test_what_takes_nothing_ends_nobody(start, where):
    reader, writer = os.pipe()
    with open(reader, "rb", 0) as reading, open(writer, "wb", 0) as writing, open("/dev/full", "wb", 0) as full:
        if where == "a pipe whose reader is gone":
            reading.close()
        server = start(err=full if where == "a full disk" else writing)
        reading.close()
        for word in ("down", "up"):
            assert server.tell(word, "a") == ("done", 0)
            time.sleep(0.1)  # a line comes in that time
        assert server.check().endswith(OK)


@pytest.mark.parametrize("stream, is_its_own", [
    pytest.param("{0}:{1}", True, id="its own stream"), pytest.param("{0}:1", False, id="another file's"),
    pytest.param("1:{1}", False, id="another device's"), pytest.param("{0}:x", False, id="no number"),
    pytest.param("{1}", False, id="one number"), pytest.param("{0}:{1} ", False, id="more than a number"),
    pytest.param("{0}:" + "0" * 40 + "{1}", False, id="a longer text"), pytest.param("", False, id="nothing"),
])
def test_lines_have_their_priority_before_them_where_journal_stream_is_the_stream_of_the_log(start, stream, is_its_own):
    near, far = socket.socketpair()
    with near, far, near.makefile() as reading:
        its_own = os.fstat(far.fileno())
        server = start(err=far, env={"JOURNAL_STREAM": stream.format(its_own.st_dev, its_own.st_ino)})
        told = (line for line in reading if not line.startswith("healthd: "))
        lines = [next(told)]  # it serves before it is stopped
        assert server.tell("down", "a") == ("done", 0)
        server.stop()
        far.close()
        lines += told
    found = [re.match(r"(<\d>|)\d{4}-\S+Z (\w+) ", line) for line in lines]
    expected = [("<6>", "INFO"), ("<4>", "WARN"), ("<4>", "WARN"), ("<6>", "INFO")]
    assert [line and line.groups() for line in found] == [(front if is_its_own else "", level) for front, level in expected], lines
