"""What a server keeps in its journal, and what the next one over the same file goes on from."""
import pytest

from support.journal import NAMES, SHUTDOWN, entries, file_of, title, write
from support.server import SCRIPT
from support.waiting import until

TOLD = [("down a", "done"), ("fail db", "done"), ("fail db", "done"), ("up nobody", "refused not listed"), ("pass a", "wrong kind"),
        ("shutdown", "done"), ("resume", "done"), ("down a", "done")]
# There is an entry for each of them but the one that is refused, after the three of the setup.
COUNT = 10
BOARD = "a=not_serving db=serving -=not_serving"


@pytest.fixture
def server(begin):
    """A server over a new file, with the changes of some sessions."""
    server = begin()
    for words, answer in TOLD:
        assert server.tell(*words.split())[0] == answer
    return server


@pytest.fixture
def again(server, begin):
    """Starts a server over the file that this one has left."""
    def restart(**how):
        server.stop()
        return begin(**how)
    return restart


def board(server):
    return server.tell("list")[0]


def test_a_new_file_has_the_setup_and_each_change_after_it_while_the_server_writes_it(server, kept):
    seen = entries(server)
    assert (len(seen), board(server)) == (COUNT, BOARD)
    assert kept() == seen


def test_a_second_run_has_no_part_in_the_file(server, fault, journal):
    assert fault() == f"journal {journal}: in use"


def test_a_server_that_stops_tells_how_many_entries_there_are(server):
    assert server.tell("stop")[0] == "stopping"
    assert server.end() == (0, f"journal {COUNT}")


def test_a_restart_has_the_statuses_and_the_entries_with_their_times_and_who_asked_and_a_change_goes_after_them(server, again):
    seen = entries(server)
    server = again()
    assert board(server) == BOARD
    assert entries(server) == seen
    assert server.tell("why", "a")[0] == "not_serving: set down by entry 9"
    assert server.tell("up", "a")[0] == "done"
    assert entries(server)[:-1] == seen


def test_a_kill_takes_nothing_back(again, begin):
    server = again()
    assert server.tell("up", "a")[0] == "done"
    server.kill()
    server = begin()
    assert (board(server), len(entries(server))) == ("a=serving db=serving -=serving", COUNT + 1)


def test_the_numbers_of_sessions_begin_anew(again):
    server = again()
    assert server.tell("up", "a")[0] == "done"
    assert entries(server)[COUNT].split()[2:] == ["session", "1", "up", "a:", "done"]


# The journal counts more than the script.

def test_a_setup_line_that_was_changed_is_not_run(again):
    server = again(script=SCRIPT.replace("register db threshold 2", "register db threshold 9"))
    registered, = [line for line in entries(server) if "register db" in line]
    assert registered.endswith("register db threshold 2 1: done")


def test_a_line_expect_is_run_and_its_fails_are_in_the_file(again, kept):
    server = again(script=SCRIPT + "expect db 1\n")
    until(lambda: (server.stats()["expired"], "db=not_serving" in board(server)), (1, True))
    assert kept()[-1].split()[2] == "expiry"
    assert kept() == entries(server)


def test_a_history_that_is_longer_than_it_may_be_has_all_its_entries_and_takes_no_more(again):
    server = again(script=SCRIPT.replace("\n", f"\nmax {COUNT - 3}\n", 1))
    assert server.tell("down", "a") == ("refused full", 3)
    stats = server.stats()
    assert (stats["entries"], stats["left"]) == (COUNT, 0)


def test_a_run_goes_on_from_entries_that_stand_for_older_ones_and_counts_on_after_these(begin, journal, kept):
    write(journal, file_of(title(3, 7, 2), *NAMES, SHUTDOWN, SHUTDOWN))
    server = begin()
    assert server.stats()["entries"] == 2
    assert server.tell("resume")[0] == "done"
    server.stop()
    assert [line.split()[0] for line in kept()] == ["-", "-", "9"]
