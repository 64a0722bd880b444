"""What `ask --watch` prints while the changes are made, and how it ends."""
import collections
import contextlib
import resource
import select
import subprocess

import pytest

from support.scripted import answering, at_port
from support.wire import MESSAGE, SERVING, WATCH_END

HEAD = b"HTTP/1.1 200 OK\r\ntransfer-encoding: chunked\r\n\r\n"
END = "grpc-status 14 watch ended\n"
PATIENCE = 40
TRIES = 5


class Follower:
    """An `ask --watch` of `a`, whose lines are read one by one."""

    def __init__(self, program, port, *options):
        self.process = subprocess.Popen([str(program), "ask", "--port", str(port), "--name", "a", "--watch", *options], bufsize=0,
                                        env=program.environment, stdin=subprocess.DEVNULL, stdout=subprocess.PIPE, stderr=subprocess.PIPE)

    def line(self):
        """The next line that it prints."""
        assert select.select([self.process.stdout], [], [], PATIENCE)[0], "it prints nothing"
        return self.process.stdout.readline().decode()

    def end(self, patience=PATIENCE):
        """The lines that are left, what it says, and its exit status."""
        printed, said = self.process.communicate(timeout=patience)
        return printed.decode(), said.decode(), self.process.returncode

    def close(self):
        self.process.kill()
        self.process.wait(PATIENCE)
        self.process.stdout.close()
        self.process.stderr.close()


@pytest.fixture
def following(program, start):
    """Starts a follower, which ends before the servers do."""
    with contextlib.ExitStack() as opened:
        yield lambda port, *options: opened.enter_context(contextlib.closing(Follower(program, port, *options)))


def change(server, word):
    assert server.tell(word, "a") == ("done", 0)


def test_each_status_is_printed_before_the_next_change_is_made_and_so_is_the_end_of_the_watch(server, following):
    change(server, "down")
    follower = following(server.port)
    assert follower.line() == "NOT_SERVING\n"
    for word, status in (("up", "SERVING\n"), ("down", "NOT_SERVING\n"), ("up", "SERVING\n")):
        change(server, word)
        assert follower.line() == status
    server.stop()
    assert follower.end() == (END, "", 0)


def test_one_of_two_statuses_ends_after_the_second_while_another_goes_on(server, following):
    other, some = following(server.port), following(server.port, "2", "--expect", "NOT_SERVING")
    assert [other.line(), some.line()] == ["SERVING\n"] * 2
    change(server, "down")
    assert some.end() == ("NOT_SERVING\n", "", 0)
    assert other.line() == "NOT_SERVING\n"


def test_what_was_printed_stays_where_the_time_is_up(server, following):
    change(server, "down")
    for _ in range(TRIES):
        printed, said, status = following(server.port, "--timeout", "4").end()
        if printed:
            break  # and else it has had no turn in its time
    assert (printed, said, status) == ("NOT_SERVING\n", "healthd: timed out after 4 s\n", 1)


def test_one_whose_lines_nobody_reads_any_more_ends_with_the_next_while_another_goes_on(server, following):
    other, left = following(server.port), following(server.port)
    assert [other.line(), left.line()] == ["SERVING\n"] * 2
    left.process.stdout.close()
    change(server, "down")
    assert (left.process.wait(PATIENCE), left.process.stderr.read()) == (1, b"healthd: write\n")
    assert other.line() == "NOT_SERVING\n"


def processor_seconds():
    """What the processes took that have ended, of the processor."""
    used = resource.getrusage(resource.RUSAGE_CHILDREN)
    return used.ru_utime + used.ru_stime


# There is no bound below that of a number of 32 bits: these are over 1,000, and of over 1,048,576 bytes. It is the processor's time that is
# bounded: each line is a write, after which another process may have its turn.
@pytest.mark.timeout(600)
@pytest.mark.parametrize("count", [1_500, 160_000])
def test_many_statuses_are_printed_and_take_no_more_than_ten_seconds_of_the_processor(following, count):
    before = processor_seconds()
    with at_port(answering(HEAD + (MESSAGE + bytes([SERVING]) + b"\r\n") * count + WATCH_END)) as scripted:
        printed, said, status = following(scripted.port).end(500)
    lines = printed.splitlines(keepends=True)
    assert (collections.Counter(lines), lines[-1:], said, status) == ({"SERVING\n": count, END: 1}, [END], "", 0)
    seconds = processor_seconds() - before
    print(f"{count} statuses took {seconds:.3f} s of the processor")
    assert seconds <= 10
