"""What `status`, `history`, `observe` and `journal` print of what others have said: nothing that a terminal would not show."""
import json

import pytest

from support.command import ran
from support.hostile import NAME, SAFE_NAME, unsafe_in
from support.scripted import at_path, saying

STATUS = f"{NAME}=serving\nsince 1 {NAME} reported - - expected - serving: {NAME}\nentries 1 kept 1 -\n"
HISTORY = f"entries 1 kept 1 -\n0 {NAME} setup up {NAME}: done\n"
HTTP = "HTTP/1.1 400 Bad Request\n"
# The answers, the end of what is printed, and what is said.
SHOWN = {
    "status": (["status"], STATUS, f"{SAFE_NAME}  serving  {SAFE_NAME}  {SAFE_NAME}  -         -\n", ""),
    "history": (["history"], HISTORY, f"0 {SAFE_NAME} setup up {SAFE_NAME}: done\n", ""),
    "a name that answers status": (["status"], f"{NAME}\n", "", f"healthd: PLACE answered {SAFE_NAME}\n"),
    "a name that answers history": (["history"], f"{NAME}\n", "", f"healthd: PLACE answered {SAFE_NAME}\n"),
    "HTTP that answers status": (["status"], HTTP, "", "healthd: PLACE answers HTTP, and is no control place\n"),
    "HTTP that answers history": (["history"], HTTP, "", "healthd: PLACE answers HTTP, and is no control place\n"),
    "observe": (["observe", "--once", "a=tcp://127.0.0.1:1"], f"refused {NAME}\n", "a fail: refused\n",
                f"healthd: PLACE answered refused {SAFE_NAME} to reports of a\n"),
}


def asked(program, folder, answers, command, *options):
    """What comes of a command at a control place that says these answers, which is PLACE in what it says."""
    place = f"{folder}/control"
    with at_path(place, saying(answers.encode())) as scripted:
        status, printed, said = ran(program, command, "--control", place, *options)
        scripted.ended()
    return status, printed, said.replace(place, "PLACE")


@pytest.fixture
def journal(start, folder):
    """The journal of a server with a service of a hostile name."""
    path = f"{folder}/hostile"
    start("--journal", path, script=f"catalogue {NAME} -\nregister {NAME} manual\nregister - manual\n").stop()
    return path


@pytest.mark.parametrize("words, answers, printed_last, said_then", SHOWN.values(), ids=SHOWN)
def test_a_command_prints_and_says_nothing_that_a_terminal_would_not_show(program, folder, words, answers, printed_last, said_then):
    _, printed, said = asked(program, folder, answers, *words)
    assert (printed.endswith(printed_last), said, unsafe_in(printed)) == (True, said_then, set())


def test_the_json_of_status_has_the_name_and_nothing_that_a_terminal_would_not_show(program, folder):
    _, printed, _ = asked(program, folder, STATUS, "status", "--json")
    assert (json.loads(printed)[0]["name"], unsafe_in(printed)) == (NAME, set())


def test_the_json_of_history_has_the_name_and_nothing_that_a_terminal_would_not_show(program, folder):
    _, printed, _ = asked(program, folder, HISTORY, "history", "--json")
    assert (json.loads(printed)["call"][3:], unsafe_in(printed)) == (NAME, set())


def test_journal_prints_nothing_that_a_terminal_would_not_show(program, journal):
    _, printed, _ = ran(program, "journal", journal)
    calls = [line.split(" ", 3)[3].rpartition(": ")[0] for line in printed.splitlines()]
    assert (calls, unsafe_in(printed)) == ([f"register {SAFE_NAME} manual", "register - manual"], set())


def test_the_json_of_journal_has_the_name_and_nothing_that_a_terminal_would_not_show(program, journal):
    _, printed, _ = ran(program, "journal", journal, "--json")
    calls = [json.loads(line)["call"] for line in printed.splitlines()]
    assert (calls, unsafe_in(printed)) == ([f"register {NAME} manual", "register - manual"], set())
