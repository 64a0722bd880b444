"""What `tell` says at a control place of a test's own, and what it makes of the answers."""
import socket
import subprocess
import threading

import pytest

from support.command import ran
from support.hostile import HOSTILE, SAFE
from support.naming import rows
from support.scripted import at_path, leaving, saying

# Lines of standard input, the answers, and what comes of them, by what each row is about. An empty line has no answer, and the session ends
# after `stopping`.
TOLD = {
    "a change": (b"pass db\n", b"done\n", (0, "done\n", "")), "a line without its end": (b"check -", b"serving\n", (0, "serving\n", "")),
    "nothing": (b"", b"", (0, "", "")), "empty lines": (b"up a\n\n\r\nup b\n", b"done\ndone\n", (0, "done\ndone\n", "")),
    "a change that is refused before one that is not": (b"up a\nup b\n", b"missing\ndone\n", (3, "missing\ndone\n", "")),
    "a change that is refused": (b"retire a\n", b"refused full\n", (3, "refused full\n", "")),
    "a wrong kind without advice": (b"retire a\n", b"wrong kind\n", (3, "wrong kind\n", "")),
    "a change that is ignored": (b"pass a\n", b"ignored\n", (3, "ignored\n", "")),
    "a stop that is not allowed": (b"stop\ncheck a\n", b"not allowed\nserving\n", (3, "not allowed\nserving\n", "")),
    "two bad lines, with two advices": (
        b"walk\nup\n", b"bad line\nbad line\n",
        (3, "bad line\nbad line\n", "healthd: no such line, healthd help tell lists those that there are\nhealthd: expected up NAME\n")),
    "an answer that cannot be printed": (b"list\n", HOSTILE + b"\n", (0, SAFE + "\n", "")),
    "an answer of HTTP": (b"up a\n", b"HTTP/1.0 bad line\n", (1, "", "healthd: PLACE answers HTTP, and is no control place\n")),
    "a line after stop": (b"stop\nup a\n", b"stopping\n", (1, "stopping\n", "healthd: no answer\n")),
    "an answer without its end": (b"up a\n", b"done", (1, "", "healthd: no answer\n")),
    "too many sessions": (b"up a\n", b"too many sessions\n", (1, "", "healthd: too many sessions\n")),
    "an answer that is too long": (b"up a\n", b"x" * 70_000 + b"\n", (1, "", "healthd: answer too long\n")),
    "a line that is too long": (b"up a\n" + b"x" * 70_000 + b"\n", b"done\n", (1, "done\n", "healthd: input line too long\n")),
}
# Lines that are refused, the answer, and the advice that is said.
RULES = "a threshold has counts from 1 to 1000, and a service depends on services that stand further left in the catalogue"
ADVICE = [
    (b"walk", "bad line", "no such line, healthd help tell lists those that there are"), (b"stop now", "bad line", "expected stop alone"),
    (b"why a b\r", "bad line", "expected why NAME"),
    *((word, "bad line", f"expected {word.decode()} NAME") for word in (b"retire", b"pass", b"fail", b"up", b"down", b"check", b"why", b"status")),
    *((word + b" now", "bad line", f"expected {word.decode()} alone") for word in (b"shutdown", b"resume", b"list", b"board", b"stats")),
    (b"up  a", "bad line", "an empty word, expected one space between words"),
    (b"up a ", "bad line", "an empty word, expected one space between words"),
    (b"up \xff", "bad line", "a line is UTF-8"), (b"entry x", "bad line", "expected entry N, a number from 0 to 4294967295"),
    (b"expect a 86401", "bad line", "expected expect NAME SECONDS, 86400 seconds at most"),
    (b"register a treshold 1", "bad line", "expected register NAME and then threshold F, threshold F R, threshold F R unknown, "
     "manual or depends and names of the catalogue"),
    (b"up a", "wrong kind", "up is for a manual service"), (b"down a", "wrong kind", "down is for a manual service"),
    *((word + b" a", "wrong kind", f"{word.decode()} is for a service with a threshold") for word in (b"pass", b"fail")),
    (b"expect a 5", "wrong kind", "expect is for a service with a threshold"), (b"register a threshold 0", "refused bad rule", RULES),
]


@pytest.fixture
def place(folder):
    return f"{folder}/control"


def told(program, place, answers, *words, **how):
    """What comes of `tell` at a place that says these answers, which is PLACE in what it says, and what was heard there."""
    with at_path(place, saying(answers)) as scripted:
        command = ran(program, "tell", "--control", place, *words, **how)
        return command._replace(said=command.said.replace(place, "PLACE")), scripted.ended()


def closed_before(program, place, answers):
    """What `tell` says of a session that said this and was closed before a line was told."""
    closed = threading.Event()

    def serve(_, client):
        client.sendall(answers)
        client.close()
        closed.set()

    with at_path(place, serve) as scripted:
        telling = subprocess.Popen([str(program), "tell", "--control", place], stdin=subprocess.PIPE, stdout=subprocess.PIPE, stderr=subprocess.PIPE)
        try:
            assert closed.wait(20)
            printed, said = telling.communicate(b"up a\n", timeout=20)
        finally:
            telling.kill()
            telling.wait()
        scripted.ended()
    return telling.returncode, printed.decode(), said.decode().replace(place, "PLACE")


def are_told_once(heard, lines):
    """Each line but an empty one, and one that is too long, was told once, in its order."""
    assert [line for line in heard.splitlines() if line] == [line for line in lines.splitlines() if line and len(line) < 1_000]


@pytest.mark.parametrize("lines, answers, expected", TOLD.values(), ids=TOLD)
def test_lines_of_standard_input_are_told_and_their_answers_printed(program, place, lines, answers, expected):
    command, heard = told(program, place, answers, given=lines)
    assert command == expected
    are_told_once(heard, lines)


@pytest.mark.parametrize("line, answer, advice", rows(ADVICE, lambda line, answer, _: line.decode("latin-1") + f", {answer}"))
def test_what_is_expected_is_said_where_a_line_is_refused(program, place, line, answer, advice):
    command, heard = told(program, place, f"{answer}\n".encode(), given=line + b"\n")
    assert command == (3, f"{answer}\n", f"healthd: {advice}\n")
    are_told_once(heard, line + b"\n")


@pytest.mark.parametrize("words, line", [(["check", "-"], b"check -\n"), (["up", "a b"], b"up a b\n")], ids=["two words", "a word with a space"])
def test_tell_makes_one_line_of_its_words(program, place, words, line):
    assert told(program, place, b"done\n", *words) == ((0, "done\n", ""), line)


def test_what_a_server_said_that_closed_the_session_is_told(program, place):
    assert closed_before(program, place, b"too many sessions\n") == (1, "", "healthd: too many sessions\n")


def test_where_a_server_said_nothing_and_closed_the_session_the_write_is_told(program, place):
    assert closed_before(program, place, b"") == (1, "", "healthd: write PLACE: broken pipe\n")


def test_where_a_server_left_without_an_answer_the_read_is_told(program, place):
    with at_path(place, leaving) as scripted:
        command = ran(program, "tell", "--control", place, "check", "-")
        scripted.ended()
    assert command == (1, "", f"healthd: read {place}: connection reset\n")


def test_tell_says_where_nobody_listens(program, place):
    with socket.socket(socket.AF_UNIX) as left:
        left.bind(place)
    assert ran(program, "tell", "--control", place, "check", "-") == (1, "", f"healthd: connect {place}: connection refused\n")


def test_tell_says_where_nothing_can_be_printed(program, place):
    with open("/dev/full", "w", encoding="utf-8") as full:
        command, _ = told(program, place, b"done\n", "up", "a", stdout=full)
    assert command == (1, "", "healthd: write: no storage space\n")
