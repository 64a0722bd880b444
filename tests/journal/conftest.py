"""What the tests of a history in a file share: servers over it, those that do not begin to serve, and what is printed of it."""
import pytest

from support.command import ran
from support.journal import NOT_STORED, entries, long_journal, printed, write
from support.process import without_room
from support.server import SCRIPT
from support.waiting import until


@pytest.fixture
def journal(folder):
    """Where the file of a journal is."""
    return f"{folder}/journal"


@pytest.fixture
def long(journal):
    """A file that takes not one more change without being written anew: how many entries it has."""
    data, count = long_journal()
    write(journal, data + b"\0")
    return count


@pytest.fixture
def begin(start, journal):
    """Starts a server over the file."""
    return lambda **how: start("--quiet", "--journal", journal, **how)


@pytest.fixture
def kept(program, journal):
    """The entries that are printed of the file."""
    return lambda: printed(program, journal)


@pytest.fixture
def command(program, folder):
    """What comes of the command `journal` for a file PATH with these bytes."""
    def run(data, *options, **how):
        path = f"{folder}/printed"
        write(path, data)
        done = ran(program, "journal", *options, path, **how)
        return done._replace(said=done.said.replace(path, "PATH"))
    return run


@pytest.fixture
def fault(start, journal):
    """Why a run ends before it has bound anything."""
    def of(path=journal, **how):
        server = start("--quiet", "--journal", path, starts=False, **how)
        if line := server.process.stdout.readline():
            server.kill()
            pytest.fail(f"it has bound a place: {line}")
        assert server.end() == (1, "")
        return server.said().removeprefix("healthd: ").removesuffix("\n")
    return of


@pytest.fixture
def common_fault(program, fault, journal):
    """Why a run ends so, where `run --check` has ended so too."""
    def of(path=journal, script=SCRIPT):
        checked = program.run("run", "--check", "--journal", path, given=script)
        found = fault(path, script=script)
        assert (checked.returncode, checked.stdout, checked.stderr) == (1, "", f"healthd: {found}\n")
        return found
    return of


@pytest.fixture
def limited(begin):
    """A server that has made a change, and may find a limit on the length of files."""
    server = begin(before=("/usr/bin/env", "--ignore-signal=XFSZ"))
    assert server.tell("down", "a")[0] == "done"
    return server


@pytest.fixture
def failed(limited, journal):
    """The same server, whose newest change could not be stored, and the next one could."""
    with without_room(limited.process, journal):
        assert limited.tell("up", "a") == NOT_STORED
    return limited


@pytest.fixture
def goes_on(kept):
    """A second after the last try at most a server opens its file anew. That has its changes then."""
    def check(server):
        until(lambda: server.tell("down", "a"), ("done", 0), patience=1.05)
        lines = kept()
        assert lines == entries(server) and lines[-1].endswith(" down a: done")
    return check
