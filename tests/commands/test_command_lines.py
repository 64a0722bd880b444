"""Which command lines the program takes, and how it refuses the others."""
import pytest

from support.command import ran, why_ended
from support.naming import command_line, rows

# Command lines that are taken: what comes of each where standard input is empty, and nobody is where they ask. NONE is a path of no file.
SERVE = ["serve", "--port", "1", "--workers", "1", "--calls", "1"]
ASK = ["ask", "--port", "1"]
UNKNOWN_SERVICE = b"\x80\0\0\0\x2dgrpc-status:5\r\ngrpc-message:unknown service\r\n"
TAKEN = [
    (["--version"], (0, "healthd 0.1.0\n", "")), (["body", "0000000000"], (0, UNKNOWN_SERVICE.hex() + "\n", "")),
    (["replay"], (1, "", "healthd: script line 1\n")), (SERVE, (1, "", "healthd: script line 1\n")),
    (["serve", "--port", "65535", "--workers", "64", "--calls", "1000"], (1, "", "healthd: script line 1\n")),
    (ASK, (1, "", "healthd: connect\n")), ([*ASK, "--name", "-", "--watch", "4294967295"], (1, "", "healthd: connect\n")),
    *(([*ASK, *options], (1, "", "healthd: connect 127.0.0.1:1: connection refused\n")) for options in (
        ["--timeout", "1"], ["--expect", "SERVICE_UNKNOWN"], ["--expect", "serving"], ["--expect", "Serving"],
        ["--host", "127.0.0.1", "--timeout", "3600", "--expect", "SERVING"])),
    *((["tell", "--control", "NONE", *words], (1, "", "healthd: connect NONE: not found\n")) for words in (
        [], ["check", "-"], ["--timeout", "3600", "stop"])),
    (["tell", "--control", "127.0.0.1:1", "check", "-"], (1, "", "healthd: connect 127.0.0.1:1: connection refused\n")),
    *((["tell", "--control", path, "check", "-"], (1, "", f"healthd: connect {path}: not found\n")) for path in ("/127.0.0.1:9", "/" + "a" * 106)),
    (["status", "--control", "NONE"], (1, "", "healthd: connect NONE: not found\n")),
    (["status", "--control", "NONE", "--json", "--timeout", "2"], (1, "", "healthd: connect NONE: not found\n")),
    (["history", "--control", "127.0.0.1:1", "--follow"], (1, "", "healthd: connect 127.0.0.1:1: connection refused\n")),
    (["history", "--control", "NONE", "--json", "--last", "4294967295"], (1, "", "healthd: connect NONE: not found\n")),
    (["journal", "NONE"], (1, "", "healthd: journal NONE: not found\n")),
    (["journal", "--json", "NONE"], (1, "", "healthd: journal NONE: not found\n")),
]
RUNS = [[], ["--report", "/run/healthd-report.sock"], ["--threads", "64"], ["--connections", "1", "--watches", "1"],
        ["--connections", "1000000"], ["--watches", "0"], ["--quiet"]]
# What observe may be told by --every and --timeout, which has to be shorter.
SECONDS_APART = [("5", "4.999"), ("0.5", "0.499"), ("0.25", "0.249"), ("0.002", "0.001"), ("1.050", "1.049"), ("1.051", "1.05"), ("1.1", "1.050"),
                 ("86400", "86399.999")]

MISSING = "the following required arguments were not provided:\n  "


def wrong(value, option, least, most):
    return f"invalid value '{value}' for '{option}': {value} is not in {least}..={most}\n"


def unsupplied(option):
    return f"a value is required for '{option}' but none was supplied\n"


# Command lines that are refused, and the words of clap that tell why.
REFUSED = [
    (["body"], MISSING + "<HEX>\n"), (["replay", "a"], "unexpected argument 'a' found\n"),
    ([], "'healthd' requires a subcommand but one was not provided\n"), (["walk"], "unrecognized subcommand 'walk'\n"),
    (["serve", "--port", "0", "--workers", "1", "--calls", "1"], wrong(0, "--port <P>", 1, 65535)),
    (["serve", "--port", "65536", "--workers", "1", "--calls", "1"], wrong(65536, "--port <P>", 1, 65535)),
    (["serve", "--port", "1", "--workers", "0", "--calls", "1"], wrong(0, "--workers <W>", 1, 64)),
    (["serve", "--port", "1", "--workers", "65", "--calls", "1"], wrong(65, "--workers <W>", 1, 64)),
    (["serve", "--port", "1", "--workers", "1", "--calls", "0"], wrong(0, "--calls <N>", 1, 1000)),
    (["serve", "--port", "1", "--workers", "1", "--calls", "1001"], wrong(1001, "--calls <N>", 1, 1000)),
    (["serve", "--workers", "1", "--calls", "1"], MISSING + "--port <P>\n"),
    (["serve", "--port", "1", "--calls", "1"], MISSING + "--workers <W>\n"),
    (["serve", "--port", "1", "--workers", "1"], MISSING + "--calls <N>\n"),
    (["run", "FILE"], "unexpected argument 'FILE' found\n"), (["run", "--listen"], unsupplied("--listen <ADDR>")),
    (["run", "--script"], unsupplied("--script <FILE>")), (["run", "--report"], unsupplied("--report <PLACE>")),
    (["run", "--threads", "0"], wrong(0, "--threads <T>", 1, 64)), (["run", "--threads", "65"], wrong(65, "--threads <T>", 1, 64)),
    (["run", "--connections", "0"], wrong(0, "--connections <C>", 1, 1000000)),
    (["run", "--connections", "1000001"], wrong(1000001, "--connections <C>", 1, 1000000)),
    (["run", "--watches", "-1"], "unexpected argument '-1' found\n"),
    (["run", "--watches", "1000001"], wrong(1000001, "--watches <W>", 0, 1000000)),
    ([*ASK, "--watch", "0"], "invalid value '0' for '--watch [<N>]': 0 is not in 1.."),
    ([*ASK, "--watch", "4294967296"], "invalid value '4294967296' for '--watch [<N>]': 4294967296 is not in 1.."),
    ([*ASK, "--watch", "a"], "invalid value 'a' for '--watch [<N>]': invalid digit found in string\n"),
    (["ask", "--port", "0"], wrong(0, "--port <P>", 1, 65535)),
    (["ask", "--port", "x"], "invalid value 'x' for '--port <P>': invalid digit found in string\n"), (["ask"], MISSING + "--port <P>\n"),
    ([*ASK, "--timeout", "0"], wrong(0, "--timeout <S>", 1, 3600)), ([*ASK, "--timeout", "3601"], wrong(3601, "--timeout <S>", 1, 3600)),
    ([*ASK, "--expect", "served"],
     "invalid value 'served' for '--expect <STATUS>'\n  [possible values: UNKNOWN, SERVING, NOT_SERVING, SERVICE_UNKNOWN]\n"),
    ([*ASK, "--expect"], "a value is required for '--expect <STATUS>' but none was supplied\n"),
    ([*ASK, "--host", "localhost"], "invalid value 'localhost' for '--host <ADDR>': not an IP address\n"),
    (["tell"], MISSING + "--control <PLACE>\n"), (["tell", "check", "-"], MISSING + "--control <PLACE>\n"),
    (["tell", "--control"], unsupplied("--control <PLACE>")), (["stop"], MISSING + "--control <PLACE>\n"),
    *(([command, "--control", "/s", "--timeout", text], wrong(text, "--timeout <S>", 1, 3600))
      for command in ("tell", "stop") for text in ("0", "3601")),
    (["tell", "--control", "/run/healthd", "up a\nup b"], "invalid value for '[WORD]...': a line feed within a word\n"),
    (["status"], MISSING + "--control <PLACE>\n"), (["status", "--control", "/s", "db"], "unexpected argument 'db' found\n"),
    (["history"], MISSING + "--control <PLACE>\n"), (["history", "--control", "/s", "--last"], unsupplied("--last <N>")),
    (["history", "--control", "/s", "--last", "4294967296"], wrong(4294967296, "--last <N>", 0, 4294967295)),
    (["history", "--control", "/s", "--timeout", "0"], wrong(0, "--timeout <S>", 1, 3600)),
    (["journal"], MISSING + "<PATH>\n"), (["journal", "/j", "/k"], "unexpected argument '/k' found\n"),
]
# Those that clap takes, and the program refuses in the same words.
ADDRESS, NO_PLACE = "not an address and a port\n", "not a loopback address and a port, and no path of a socket that begins with '/'\n"
NOWHERE = "invalid value '{}' for '--control <PLACE>': not a loopback address and a port, nor the path of a socket\n"
TOO_LONG = "longer than 107 bytes, the most that the path of a socket may have\n"
VALUES_REFUSED = [
    *((["run", "--listen", text], f"invalid value '{text}' for '--listen <ADDR>': {ADDRESS}") for text in ("8080", "localhost:8080", "[::1]", "")),
    (["run", "--plain", "8082"], f"invalid value '8082' for '--plain <ADDR>': {ADDRESS}"),
    *((["run", "--control", text], f"invalid value '{text}' for '--control <PLACE>': {NO_PLACE}")
      for text in (
          # addresses that other machines reach, or that a socket would have on all networks; no port, no number, a name; no path of a socket
          "0.0.0.0:8081", "10.0.0.1:8081", "[::]:8081", "[::ffff:127.0.0.1]:8081", "128.0.0.1:8081", "127.0.0.1", "127.0.0.1:65536",
          "localhost:8081", "run/healthd", "")),
    *((["run", "--report", text], f"invalid value '{text}' for '--report <PLACE>': {NO_PLACE}") for text in ("0.0.0.0:8081", "run/healthd")),
    (["run", "--watches", "10001"], "invalid value '10001' for '--watches <W>': more than the 10000 connections\n"),
    (["run", "--connections", "4", "--watches", "5"], "invalid value '5' for '--watches <W>': more than the 4 connections\n"),
    *(([command, "--control", "nowhere"], NOWHERE.format("nowhere")) for command in ("stop", "status", "history")),
    (["observe", "--control", "run/healthd", "db=tcp://a:1"], NOWHERE.format("run/healthd")),
    (["observe", "--control", "/a", "db=tcp://a:1/path"],
     "invalid value 'db=tcp://a:1/path' for '<TARGET>...': a path, expected tcp://HOST:PORT alone\n"),
    (["observe", "--control", "/a", "db=tcp://a:1", "web"],
     "invalid value 'web' for '<TARGET>...': no URL, expected NAME=URL as in db=tcp://localhost:5432\n"),
]
FIRST_OF_TWO = [
    (["run", "--control", "-", "--plain", ""], f"invalid value '' for '--plain <ADDR>': {ADDRESS}"),
    (["run", "--report", "", "--control", "-"], f"invalid value '-' for '--control <PLACE>': {NO_PLACE}"),
]
LONG_PATHS = [pytest.param("/" + "a" * 107, id="108 letters"), pytest.param("/" + "\u00e4" * 54, id="54 letters of two bytes each")]
AT_A_PLACE = [["tell"], ["stop"], ["status"], ["history"], ["observe", "db=tcp://a:1"]]
NO_SECONDS = [("--every", "0"), ("--timeout", "1 s"), ("--timeout", "0"),
              *(("--every", text) for text in ("86400.001", "86401", "0.000", "", ".5", "1.", "1.0005", "1.+5"))]

TIP = "healthd: HEALTHD_CONTROL in the environment may name PLACE too\n"
WITHOUT_A_PLACE = [["tell", "list"], ["stop"], ["status"], ["history", "--json"], ["observe", "--once"]]
# The first has a place, and the others want none.
OTHERS = [["status", "--control", "nowhere"], ["ask"], ["journal"]]


@pytest.fixture
def none(folder):
    """A path of no file."""
    return f"{folder}/none"


def is_refused(command, begin):
    """A command line is refused, in words that begin so."""
    begin = f"error: {begin}"
    assert (command.status, command.printed, command.said[:len(begin)]) == (2, "", begin)


def observe(program, *options):
    return ran(program, "observe", "--control", "/a", *options, "db=tcp://a:1")


def by_words(table):
    """The command lines of a table that has nothing else."""
    return [pytest.param(words, id=row.id) for words, row in zip(table, rows([(words,) for words in table], command_line))]


@pytest.mark.parametrize("words, expected", rows(TAKEN, command_line))
def test_a_command_line_is_taken(program, none, words, expected):
    status, printed, said = expected
    assert ran(program, *(word.replace("NONE", none) for word in words)) == (status, printed, said.replace("NONE", none))


@pytest.mark.parametrize("options", by_words(RUNS))
def test_the_options_of_a_run_are_taken_and_it_ends_because_its_script_is_empty(program, options):
    assert why_ended(ran(program, "run", *options)) == (1, "", "healthd: no catalogue line\n")


def test_a_run_reads_the_script_that_it_is_told(program, folder):
    command = ran(program, "run", "--listen", "[::1]:8080", "--script", "s", within=folder)
    assert why_ended(command) == (1, "", "healthd: read s: not found\n")


def test_ask_asks_at_the_host_and_the_port_that_it_is_told(program):
    status, printed, said = ran(program, "ask", "--port", "65535", "--host", "::1", "--timeout", "3600", "--expect", "SERVING")
    assert (status, printed) == (1, "") and said.startswith("healthd: connect [::1]:65535: ")


@pytest.mark.parametrize("every, timeout", SECONDS_APART)
def test_observe_tells_seconds_apart_to_the_thousandth(program, none, every, timeout):
    status, printed, _ = ran(program, "observe", "--control", none, "--once", "--every", every, "--timeout", timeout, "a=tcp://127.0.0.1:1")
    assert status in (1, 3) and printed.startswith("a fail: ")


@pytest.mark.parametrize("words, begin", rows(REFUSED, command_line))
def test_another_command_line_is_refused_in_the_words_of_clap(program, words, begin):
    is_refused(ran(program, *words), begin)


@pytest.mark.parametrize("words, begin", rows(VALUES_REFUSED, command_line))
def test_a_value_that_clap_takes_is_refused_in_the_same_words(program, words, begin):
    is_refused(ran(program, *words), begin)


@pytest.mark.parametrize("words, begin", rows(FIRST_OF_TWO, command_line))
def test_of_two_values_that_are_wrong_the_first_counts(program, words, begin):
    is_refused(ran(program, *words), begin)


@pytest.mark.parametrize("path", LONG_PATHS)
@pytest.mark.parametrize("option", ["--control", "--report"])
def test_a_run_refuses_a_path_with_more_bytes_than_that_of_a_socket_may_have(program, option, path):
    is_refused(ran(program, "run", option, path), f"invalid value '{path}' for '{option} <PLACE>': {TOO_LONG}")


@pytest.mark.parametrize("path", LONG_PATHS)
@pytest.mark.parametrize("words", by_words(AT_A_PLACE))
def test_whoever_asks_a_server_is_refused_such_a_path_too(program, words, path):
    is_refused(ran(program, *words, "--control", path), f"invalid value '{path}' for '--control <PLACE>': {TOO_LONG}")


@pytest.mark.parametrize("words", by_words(AT_A_PLACE))
def test_a_long_text_that_begins_with_no_slash_is_no_path(program, words):
    is_refused(ran(program, *words, "--control", "a" * 200), NOWHERE.format("a" * 200))


@pytest.mark.parametrize("option, text", NO_SECONDS)
def test_observe_refuses_what_is_no_number_of_seconds(program, option, text):
    is_refused(observe(program, option, text), f"invalid value '{text}' for '{option} <S>': not a number of seconds from 0.001 to 86400\n")


@pytest.mark.parametrize("text", ["0.001", "0.25", "1.050", "86400"])
def test_a_timeout_that_is_not_below_the_seconds_of_every_is_refused(program, text):
    is_refused(observe(program, "--every", text, "--timeout", text),
               f"invalid value '{text}' for '--timeout <S>': not below the {text} seconds of --every\n")


def test_the_seconds_of_every_that_are_not_above_the_default_of_timeout_are_refused(program):
    is_refused(observe(program, "--every", "2"), "invalid value '2' for '--timeout <S>': not below the 2 seconds of --every\n")


@pytest.mark.parametrize("words", by_words(WITHOUT_A_PLACE))
def test_a_command_that_lacks_its_place_says_what_may_name_it(program, words):
    status, printed, said = ran(program, *words)
    assert (status, printed, said.endswith(TIP)) == (2, "", True)


@pytest.mark.parametrize("words", by_words(OTHERS))
def test_a_command_that_lacks_no_place_does_not_say_what_may_name_it(program, words):
    status, printed, said = ran(program, *words)
    assert (status, printed, said.endswith(TIP)) == (2, "", False)


@pytest.mark.parametrize("command", ["tell", "stop", "status", "history"])
def test_why_a_place_is_refused_is_told_above_the_usage_of_its_own_command(program, command):
    said = ran(program, command, "--control", "nowhere").said
    assert f"\nUsage: healthd {command} " in said and said.count("Usage: ") == 1


@pytest.mark.parametrize("text", ["192.0.2.7:80", "localhost:8081", "run/healthd", ""])
def test_tell_tells_no_other_machine(program, text):
    is_refused(ran(program, "tell", "--control", text), NOWHERE.format(text))


@pytest.mark.parametrize("text", ["192.0.2.7:80", "localhost:8081", "run/healthd", ""])
def test_tell_tells_no_other_machine_that_the_environment_names(program, text):
    is_refused(ran(program, "tell", control=text), NOWHERE.format(text) if text else MISSING + "--control <PLACE>\n")


@pytest.mark.parametrize("place", ["127.0.0.1:1", "[::1]:1", "NONE"])
def test_tell_asks_at_the_place_that_is_given_and_not_at_that_of_the_environment(program, none, place):
    place = place.replace("NONE", none)
    status, printed, said = ran(program, "tell", "--control", place, control="nowhere")
    assert (status, printed) == (1, "") and said.startswith(f"healthd: connect {place}: ")


@pytest.mark.parametrize("place", ["127.0.0.1:1", "[::1]:1", "NONE"])
def test_tell_asks_at_the_place_of_the_environment(program, none, place):
    place = place.replace("NONE", none)
    status, printed, said = ran(program, "tell", control=place)
    assert (status, printed) == (1, "") and said.startswith(f"healthd: connect {place}: ")
