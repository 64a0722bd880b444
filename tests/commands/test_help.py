"""What the help of each command has to say, and what each option comes to that is not given."""
import re

import pytest

from support.command import ran

# Each option with its example, and each line of a script.
HELP = {
    "run": ["--listen <ADDR>", "e.g. 0.0.0.0:8080 or [::1]:8080", "--plain <ADDR>", "e.g. 0.0.0.0:8081", "--report <PLACE>",
            "its owner's group may open too", "--script <FILE>", "e.g. /etc/healthd/services", "--threads <T>", "1 to 64, e.g. 4",
            "no more than connections", "--connections <C>", "1 to 1000000, e.g. 500", "--watches <W>", "0 to C, e.g. 400",
            "told its status and ended", "register NAME threshold F [R [unknown]]", "register NAME manual", "register NAME depends NAME..",
            "stands further left in the", "retire NAME", "pass NAME, fail NAME", "up NAME, down NAME", "expect NAME S", "shutdown", "resume",
            "begins with # is a comment", "max N", "not answered done or replaced"],
    "ask": ["--port <P>", "e.g. 8080", "--host <ADDR>", "e.g. 192.0.2.7 or ::1", "--name <NAME>", "e.g. my.package.Service", "--watch [<N>]",
            "1 to 4294967295, e.g. 3", "--timeout <S>", "1 to 3600, e.g. 5", "--expect <STATUS>", "exit status 3",
            "UNKNOWN, SERVING, NOT_SERVING, SERVICE_UNKNOWN"],
    "tell": ["--control <PLACE>", "e.g. 127.0.0.1:8082", "e.g. /run/healthd", "e.g. fail db", "standard input", "exit status is 3",
             "refused .., missing, wrong kind, ignored", "--timeout <S>", "1 to 3600, e.g. 2", "Standard error says what is wrong"],
    "status": ["--control <PLACE>", "e.g. 127.0.0.1:8082", "--timeout <S>", "--json", "NO_COLOR", "healthd status --control /run/healthd/control"],
    "history": ["--control <PLACE>", "--timeout <S>", "--last <N>", "0 to 4294967295, e.g. 20", "--follow",
                "exit status 0 when the server stops", "healthd history --control /run/healthd/control --last 20"],
    "journal": ["<PATH>", "--json", "also while a server writes", "healthd journal /var/lib/healthd/journal"],
    "serve": ["--port <P>", "--workers <W>", "--calls <N>"], "replay": ["no comments", "healthd run --check"],
}
DEFAULTS = {"run": ["127.0.0.1:8080", "10000"], "ask": ["127.0.0.1"], "tell": ["10"], "stop": ["30"], "status": ["10"], "history": ["10"],
            "observe": ["5", "2"], "body": [], "replay": [], "serve": [], "journal": []}


@pytest.mark.parametrize("command, parts", HELP.items(), ids=HELP)
def test_the_help_of_a_command_says_all_that_it_has_to(program, command, parts):
    status, printed, said = ran(program, command, "--help")
    assert (status, said, [part for part in parts if part not in printed]) == (0, "", [])


@pytest.mark.parametrize("command, defaults", DEFAULTS.items(), ids=DEFAULTS)
def test_a_command_has_its_defaults_alone(program, command, defaults):
    assert re.findall(r"\[default: ([^\]]*)\]", ran(program, command, "--help").printed) == defaults
