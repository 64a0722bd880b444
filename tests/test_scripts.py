"""What is read in a script: what each of its lines comes to in a replay, which line is bad in one to replay, to serve or to run, what is
said of one to run that is none, and what a script expects."""
import json

import pytest

from support.command import ran, why_ended
from support.naming import rows

SERVE = ["serve", "--port", "1", "--workers", "1", "--calls", "1"]

# Scripts to replay, with what is printed of each line.
REPLAYS = {
    "a service that rises by two passes": """catalogue a -
max 100
register a threshold 2 2 > done
open a > watch 0 serving
fail a > done
check a > serving
fail a > done
check a > not serving
pass a > done
check a > not serving
fail a > done
check a > not serving
pass a > done
check a > not serving
pass a > done
check a > serving
step 0 > not serving
step 0 > serving
step 0 > none
register a threshold 1 0 > refused bad rule
register a threshold 1 1001 > refused bad rule""",
    "a service that depends on two": """catalogue a b -
max 100
register a threshold 2 > done
register b manual > done
register - depends a b > done
board > 12884901909
fail a > done
pass a > done
fail a > done
check a > serving
fail a > done
check a > not serving
check b > serving
check - > not serving
check zz > not found
open zz > watch 0 service unknown
step 0 > none
board > 30064771110""",
    "each answer": """catalogue a b -
max 100
register a manual > done
register a threshold 1 > replaced
retire b > missing
pass b > missing
up a > wrong kind
pass a > done
shutdown > done
fail a > ignored
check a > not serving
resume > done
check a > serving
register b depends b > refused bad rule
register b threshold 0 > refused bad rule
register b threshold 1001 > refused bad rule
register b threshold 1000 > done
retire zz > refused not listed
down zz > refused not listed
register zz threshold 0 > refused not listed
check b > serving
retire b > done
check b > not found
board > 47244640257""",
    "each kind of change for each kind of service": """catalogue a b -
max 100
pass a > missing
register a threshold 2 > done
register b manual > done
register - depends a b > done
up a > wrong kind
pass - > wrong kind
down b > done
check - > not serving
shutdown > done
pass b > wrong kind
register b manual > replaced
check b > not serving
resume > done
check b > serving
retire a > done
check - > not serving""",
    "a full journal": """catalogue a b -
max 3
register a manual > done
register b manual > done
down a > done
up a > refused full
register b threshold 0 > refused bad rule
register b manual > refused full
retire a > refused full
shutdown > refused full
resume > refused full
pass b > refused full
pass zz > refused not listed
check a > not serving
board > 12884901894""",
    "no room at all": """catalogue -
max 0
register - manual > refused full
board > 0""",
    "lawful rules alone": """catalogue a b c -
max 0
register b depends b > refused bad rule
register b depends c > refused bad rule
register b threshold 1001 > refused bad rule
register b threshold 1 0 > refused bad rule
register b threshold 1 1001 unknown > refused bad rule
register b threshold 0 > refused bad rule
register b depends a > refused full
register b threshold 1000 1000 > refused full""",
    "two watches": """catalogue db api -
max 100
register db manual > done
register api depends db > done
register - depends db api > done
open - > watch 0 serving
open api > watch 1 serving
down db > done
step 0 > not serving
step 0 > none
step 1 > not serving
up db > done
step 1 > serving
step 0 > serving
step 0 > none
check - > serving
board > 21474836501""",
    "quick flips": """catalogue a -
max 100
register a manual > done
open a > watch 0 serving
down a > done
up a > done
step 0 > not serving
step 0 > serving
step 0 > none""",
    "a name that comes and goes": """catalogue a -
max 100
open a > watch 0 service unknown
check a > not found
register a manual > done
step 0 > serving
open a > watch 1 serving
retire a > done
step 1 > service unknown
step 0 > service unknown
step 0 > none
open zz > watch 2 service unknown
register a manual > done
step 2 > none
step 0 > serving
step 1 > serving""",
    "a registration while shut down": """catalogue a -
max 100
register a manual > done
open a > watch 0 serving
shutdown > done
step 0 > not serving
register a manual > replaced
step 0 > none
resume > done
step 0 > serving""",
    "a resume without a shutdown": """catalogue a -
max 100
register a threshold 1 > done
fail a > done
check a > not serving
resume > done
check a > serving""",
    "nothing that is heard while shut down": """catalogue a -
max 100
register a threshold 2 > done
shutdown > done
fail a > ignored
fail a > ignored
resume > done
check a > serving
fail a > done
check a > serving""",
    "a service that is unknown until it hears": """catalogue a -
max 100
register a threshold 2 1 unknown > done
register - depends a > done
open a > watch 0 unknown
check - > not serving
shutdown > done
check a > not serving
pass a > ignored
resume > done
check a > unknown
fail a > done
check a > serving
check - > serving
resume > done
step 0 > not serving
step 0 > unknown
step 0 > serving
step 0 > unknown
step 0 > none
board > 30064771083""",
    "a service that is unknown anew": """catalogue a -
max 100
shutdown > done
register a threshold 1 1 unknown > done
check a > not serving
resume > done
check a > unknown
pass a > done
check a > serving
register a threshold 1 1 unknown > replaced
check a > unknown
fail a > done
check a > not serving""",
    "what each rule hears": """catalogue a b c d e f -
max 100
register a threshold 2 > done
fail a > done
pass a > done
fail a > done
check a > serving
fail a > done
check a > not serving
fail a > done
up a > wrong kind
check a > not serving
register b threshold 1 > done
fail b > done
check b > not serving
pass b > done
check b > serving
fail b > done
check b > not serving
register c threshold 2 2 unknown > done
down c > wrong kind
check c > unknown
fail c > done
check c > serving
fail c > done
check c > not serving
pass c > done
check c > not serving
pass c > done
check c > serving
register d threshold 2 2 unknown > done
pass d > done
check d > serving
fail d > done
check d > serving
fail d > done
check d > not serving
register e manual > done
down e > done
check e > not serving
pass e > wrong kind
fail e > wrong kind
check e > not serving
up e > done
check e > serving
down e > done
check e > not serving
register f depends > done
pass f > wrong kind
fail f > wrong kind
up f > wrong kind
down f > wrong kind
check f > serving""",
    "each form of a line": """catalogue a b -
max 100
open - > watch 0 service unknown
register a threshold 2 > done
register zz threshold 0 > refused not listed
register a threshold 0000000007 > replaced
register a threshold 4294967295 > refused bad rule
register a threshold 2 3 > replaced
register a threshold 1001 0 > refused bad rule
register a threshold 2 3 unknown > replaced
register b manual > done
register - depends a b > done
register a depends > replaced
register a depends - > refused bad rule
register b depends b a b > refused bad rule
retire zz > refused not listed
pass a > wrong kind
fail - > wrong kind
up b > done
down -- > refused not listed
shutdown > done
resume > done
check zz > not found
step 0 > not serving
step 0000000000 > serving
step 0 > not serving
board > 51539607573""",
    "a chain of sixteen": "catalogue " + " ".join(f"n{number}" for number in range(15)) + " -\nmax 100\n"
    + "register n0 threshold 1 > done\n"
    + "".join(f"register n{number} depends n{number - 1} > done\n" for number in range(1, 15))
    + """register - depends n14 > done
open - > watch 0 serving
fail n0 > done
board > 75877755562
step 0 > not serving
retire n7 > done
board > 80172690090
resume > done
board > 84467651925
step 0 > none""",
}

LONG = "0123456789abcdef" * 8
OPENINGS = [
    ("", "script line 1"), ("\n", "script line 2"), ("\n\n", "script line 3"), ("catalogue", "script line 1"), ("catalogue ", "script line 1"),
    ("catalogue  -", "script line 1"), ("\n\nmax 1", "script line 3"), ("catalogues a -", "script line 1"), ("catalogue a", "catalogue fault 5"),
    ("catalogue a\nmin 3", "catalogue fault 5"), ("catalogue - -", "catalogue fault 4"),
    ("catalogue a b c d e f g h i j k l m n o p -", "catalogue fault 2"), (f"catalogue {LONG}. -\nmax 1", "catalogue fault 3"),
    (f"catalogue {LONG}. {LONG}. -", "catalogue fault 3"), (f"catalogue {LONG} {LONG}", "catalogue fault 4"),
    ("catalogue a -\nmin 3", "script line 2"), ("catalogue a -\n\nmin 3", "script line 3"), ("catalogue a -\nmax", "script line 2"),
    ("catalogue a -\nmax -", "script line 2"), ("catalogue a -\nmax 1 2", "script line 2"), ("catalogue a -\nmax 4294967296", "script line 2"),
    ("catalogue a -\nmax 00000000001", "script line 2"), ("catalogue a -\nmax 1\nstep 0", "script line 3"),
    ("catalogue a -\nmax 1\nstep 0\nopen a", "script line 3"),
    # Comments, carriage returns, and no line `max`: a script to run may have these.
    ("catalogue a -", "script line 2"), ("catalogue a -\n", "script line 2"), ("catalogue a -\n\n", "script line 3"),
    ("catalogue a -\nresume", "script line 2"), ("# a\ncatalogue a -\nmax 9", "script line 1"), ("catalogue a -\nmax 9\n# up a", "script line 3"),
    ("catalogue a -\nmax 9\r\n", "script line 2"), ("catalogue a -\nmax 9\n\r\n", "script line 3"),
    ("catalogue a -\nmax 9\nresume\r", "script line 3"), ("catalogue a -\r\nmax 9\r\n", "catalogue fault 5"),
]

# Lines that are bad after an opening of three lines, where a watch is opened. So are those of `expect`.
BAD_TO_REPLAY = [
    "register a threshold 1 4294967296", "register a threshold 1 00000000001", "register a threshold 1 2 3", "register a threshold 1 x",
    "register a threshold 1 unknown", "register a threshold 1 2 up", "register a threshold 1 2 unknown 3", "register a manual unknown",
    "register a threshold x 1", "go", " ", " board", "board ", "check  a", "check a ", "check", "check a b", "Check a", "check\ta", "open", "step",
    "step a", "step -1", "step +0", "step 1", "step 00000000000", "step 4294967296", "pass", "pass a b", "shutdown a", "register", "register a",
    "register a threshold", "register a threshold 4294967296", "register a threshold 00000000001", "register a manual 1", "register a depends zz",
    "register a depends a zz", "register a other", "max 100", "catalogue a b -", "expect a 5", "expect a 0",
]
# What a script to serve has after its opening, and the line that is bad.
BAD_TO_SERVE = [
    ("check a", 3), ("open a", 3), ("step 0", 3), ("board", 3), ("up a\n\nboard", 5), ("go ", 3), ("go a", 3), ("go\ngo", 4),
    ("go\nregister a manual", 4), ("go\nretire a", 4), ("go\nup a\n\ncheck a", 6), ("go\nup  a", 4), ("expect a 5\ngo", 3),
    ("up a\ngo\nexpect a 5", 5), ("up a\nexpect a 0", 4),
]

# What a script to run has after its opening, the number of the line that is bad, and what is said of it.
EMPTY = "an empty word, expected one space between words"
UNKNOWN = "no such line, expected register, retire, pass, fail, up, down, shutdown, resume or expect"
OTHER, LATE, SECONDS = "not in a script to run", "expected max right after the catalogue", "expected expect NAME SECONDS, 86400 seconds at most"
COUNTS, RULE = "expected threshold F, threshold F R or threshold F R unknown", "no such rule, expected threshold, manual or depends"
NAMES, NEEDS_RULE = "expected catalogue and the names", "expected register NAME and then threshold, manual or depends"


def no_number(word):
    return f'"{word}" is no number from 0 to 4294967295'


def unlisted(name):
    return f'"{name}" is not in the catalogue'


# Of a text 200 characters are shown, also where they have two bytes each.
DIGITS = ("0123456789abcdef" * 13)[:204]
UMLAUTS = "ü" * 200
BAD_TO_RUN = [
    ("", "max 9\ncatalogue -", 1, "max 9", NAMES), ("", "# a\n\ncatalogue", 3, "catalogue", NAMES), ("", "catalogue  -", 1, "catalogue  -", NAMES),
    ("", "Catalogue -", 1, "Catalogue -", NAMES), ("", "go\n", 1, "go", NAMES), ("catalogue db -\r\n", "\r\n\n#\nbad", 5, "bad", UNKNOWN),
    *(("catalogue db -\n", body, number, line, complaint) for body, number, line, complaint in (
        ("# one\nregister db treshold 2", 3, "register db treshold 2", RULE), ("register db Manual\r\n", 2, "register db Manual", RULE),
        ("register db", 2, "register db", NEEDS_RULE), ("register", 2, "register", NEEDS_RULE),
        ("register db threshold", 2, "register db threshold", COUNTS), ("register db threshold 2 3 up", 2, "register db threshold 2 3 up", COUNTS),
        ("register db threshold 2 3 unknown 4", 2, "register db threshold 2 3 unknown 4", COUNTS),
        ("register db threshold two", 2, "register db threshold two", no_number("two")),
        ("register db threshold 2 -1", 2, "register db threshold 2 -1", no_number("-1")),
        ("register db threshold 2 unknown", 2, "register db threshold 2 unknown", no_number("unknown")),
        ("register db threshold 4294967296 1 unknown", 2, "register db threshold 4294967296 1 unknown", no_number("4294967296")),
        ("register db manual 1", 2, "register db manual 1", "expected manual alone"),
        ("register - depends db api", 2, "register - depends db api", unlisted("api")),
        ("register - depends b a", 2, "register - depends b a", unlisted("b")), ("retire", 2, "retire", "expected retire NAME"),
        ("pass a b", 2, "pass a b", "expected pass NAME"), ("fail", 2, "fail", "expected fail NAME"), ("up a b c", 2, "up a b c", "expected up NAME"),
        ("down", 2, "down", "expected down NAME"), ("shutdown now", 2, "shutdown now", "expected shutdown alone"),
        ("resume db", 2, "resume db", "expected resume alone"), ("start db", 2, "start db", UNKNOWN),
        ("Register db manual", 2, "Register db manual", UNKNOWN), ("up db\n\ncatalogue db -", 4, "catalogue db -", UNKNOWN),
        ("expect db", 2, "expect db", SECONDS), ("expect db 86401", 2, "expect db 86401", SECONDS),
        ("expect db 5\nexpect db 5 6", 3, "expect db 5 6", SECONDS), ("expect  db 5", 2, "expect  db 5", EMPTY),
        ("max 9\nexpect db", 3, "expect db", SECONDS), ("up db\nexpect db 5\nexpect db -1", 4, "expect db -1", SECONDS),
        ("expect db 5\n\nbad", 4, "bad", UNKNOWN), ("expect db 5\nmax 9", 3, "max 9", LATE), ("expect db 5\ngo", 3, "go", OTHER),
        ("expect db  5\nexpect db 5", 2, "expect db  5", EMPTY), ("check db", 2, "check db", OTHER), ("max 9\nopen", 3, "open", OTHER),
        ("open db", 2, "open db", OTHER), ("step 0", 2, "step 0", OTHER), ("board", 2, "board", OTHER), ("go\r\nup db", 2, "go", OTHER),
        ("\nup db\ngo", 4, "go", OTHER),
        ("max 9\n# one\n\n# two\r\n\r\ncheck db", 7, "check db", OTHER), ("up db\nmax 9", 3, "max 9", LATE), ("max 9\nmax 9", 3, "max 9", LATE),
        ("# b\nmax 9\nmax 9", 4, "max 9", LATE), ("max many", 2, "max many", no_number("many")), ("max", 2, "max", "expected max N"),
        ("max 4294967296", 2, "max 4294967296", no_number("4294967296")), ("max\r9", 2, "max\\u{d}9", UNKNOWN), ("Max 9", 2, "Max 9", UNKNOWN),
        ("max 1 2", 2, "max 1 2", "expected max N"), ("max  9", 2, "max  9", EMPTY), ("up  db", 2, "up  db", EMPTY), (" up db", 2, " up db", EMPTY),
        (" # a", 2, " # a", EMPTY), ("up db # b", 2, "up db # b", "expected up NAME"), ("\t# a", 2, "\\u{9}# a", UNKNOWN),
        ("\r#", 2, "\\u{d}#", UNKNOWN), ("\r\r\n", 2, "\\u{d}", UNKNOWN), ("up db\rdown db", 2, "up db\\u{d}down db", "expected up NAME"),
        ("#\r\nup db\n# b\nup  db\n", 5, "up  db", EMPTY), ("up db \r\n", 2, "up db ", EMPTY), ("fail\tdb", 2, "fail\\u{9}db", UNKNOWN),
        ("shutdown\r\r\n", 2, "shutdown\\u{d}", UNKNOWN), ("\x1b[31mup\x7f\0\x9b", 2, "\\u{1b}[31mup\\u{7f}\\u{0}\\u{9b}", UNKNOWN),
        ("register db depends d\tb", 2, "register db depends d\\u{9}b", unlisted("d\\u{9}b")), ('up "db" \\', 2, 'up "db" \\', "expected up NAME"),
        ("prüfe db", 2, "prüfe db", UNKNOWN), ("register db depends ü 名", 2, "register db depends ü 名", unlisted("ü")),
        (f"up {DIGITS[:190]} efghij", 2, f"up {DIGITS[:190]} efghij", "expected up NAME"),
        (f"up {DIGITS[:190]} efghijk", 2, f"up {DIGITS[:190]} efghij..", "expected up NAME"),
        (f"{UMLAUTS}", 2, UMLAUTS, UNKNOWN), (f"{UMLAUTS}ü", 2, f"{UMLAUTS}..", UNKNOWN),
        (f"register - depends {DIGITS}", 2, f"register - depends {DIGITS[:181]}..", unlisted(f"{DIGITS[:200]}..")),
        ("up db\n\n# c\n\nfail db db\nbad", 6, "fail db db", "expected fail NAME"))),
    ("", "\n\ncatalogue db -\n\nmax 9\n\nup", 7, "up", "expected up NAME"), ("", "#\n\ncatalogue -\n\r\n#\nmin 3", 6, "min 3", UNKNOWN),
]
# Scripts to run without a catalogue, or with one that has a fault, and others that are no text.
NO_SCRIPTS = [
    ("# only a comment\n\n\r\n", "no catalogue line"), ("\r", "no catalogue line"), ("catalogue db db -", 'catalogue: "db" is listed twice'),
    ("# a\ncatalogue a b - c - b", 'catalogue: "b" is listed twice'), ("catalogue - -", 'catalogue: "-" is listed twice'),
    ("#\ncatalogue - -\r", 'catalogue: "-" is listed twice'), ("catalogue db api", "catalogue: no empty name, expected - among the names"),
    ("#\ncatalogue a\r\n", "catalogue: no empty name, expected - among the names"),
    ("catalogue a b c d e f g h i j k l m n o p -", "catalogue: 17 names, 16 are allowed"),
    (f"catalogue - {LONG}.", f'catalogue: "{LONG}." has more than 128 bytes'), (b"# \xff", "script not text"), (b"bad\n\xff", "script not text"),
]

# Where comments, empty lines and carriage returns may be, by the line whose change is not made. `#` and CR are bytes like others elsewhere.
READ = [
    ("catalogue a -\nmax 9\nup a", "script line 3: missing"),
    ("catalogue a -\nup a\r\nresume", "script line 2: missing"),
    ("# A database\r\ncatalogue db -\r\nmax 9\r\n\r\nregister db threshold 2\r\nregister - depends db\r\n# It starts up\r\nup db\r\n",
     "script line 8: wrong kind"),
    ("catalogue a -\n\n# b\nmax 0\n\nup a", "script line 6: refused full"),
    ("# first\ncatalogue a -\n#\nmax 9\n\n#up a\nup a\n# last", "script line 7: missing"),
    ("catalogue a -\r\nmax 9\r\nresume\r\n\r\ndown -\r", "script line 5: missing"),
    ("#\r\n\r\ncatalogue a -\nmax 9\n# a\r\n\r\nup a\r\n\r", "script line 7: missing"),
    ("catalogue # -\nmax 9\nup #", "script line 3: missing"),
    ("catalogue # -\nmax 9\nresume\nup a#\n#up #", "script line 4: refused not listed"),
    ("catalogue a -\nmax 9\nresume\nup a\rdown", "script line 4: refused not listed"),
    ("catalogue a -\nmax 9\nup \ra", "script line 3: refused not listed"),
    ("catalogue a -\nmax 9\nup a\r\r\n", "script line 3: refused not listed"),
    ("catalogue a -\nmax 9\nup a\r\r", "script line 3: refused not listed"),
    ("catalogue a -\nmax 9\n# a\rgo\nup a", "script line 4: missing"),
    ("catalogue a b c d e f g h i j k l m n o -\nmax 4294967295\nup o", "script line 3: missing"),
]

# What a script expects, and the first line `expect` that would not be answered `done`.
EXPECTED = {
    "a": ("expect a 5", 5), "b": ("expect b 86400\npass b\nfail b\nshutdown\nresume", 86_400), "c": ("expect c 5\nexpect c 9", 9),
    "d": ("expect d 5\nexpect d 0", None), "e": ("expect e 0\nexpect e 5", 5), "f": ("expect f 5\nretire f", None),
    "g": ("expect g 5\nregister g manual", None), "h": ("expect h 5\nregister h depends", None), "i": ("expect i 5\nregister i threshold 3 4", 5),
    "j": ("expect j 5\nretire j\nregister j threshold 1", None), "k": ("expect k 5\nretire k\nregister k threshold 1\nexpect k 7", 7),
    "l": ("expect l 5\nregister m manual\nretire m", 5), "n": ("pass n", None), "": ("expect - 0000086400", 86_400),
}
UNEXPECTED = [
    ("expect a 5", "script line 2: missing"), ("expect a 0", "script line 2: missing"),
    ("expect a 5\nregister a threshold 1", "script line 2: missing"), ("register b threshold 1\nexpect a 5", "script line 3: missing"),
    ("register a threshold 1\nretire a\nexpect a 5", "script line 4: missing"),
    ("expect zz 5", "script line 2: refused not listed"), ("expect zz 0", "script line 2: refused not listed"),
    ("register a manual\nexpect a 5", "script line 3: wrong kind"),
    ("register a threshold 1\nregister b depends a\n\nexpect b 5", "script line 5: wrong kind"),
    ("register a threshold 1\nexpect a 5\nregister a manual\nexpect a 5", "script line 5: wrong kind"),
]
FIRST_OF_TWO = [
    ("register a threshold 1\nexpect a 5\nexpect b 5\nexpect zz 1", "script line 4: missing"),
    ("register a threshold 1\nexpect zz 5\nexpect b 5", "script line 3: refused not listed"),
]


def ends_by(command, fault):
    """A command ends by its script, before it prints anything. What it says last is why."""
    assert why_ended(command) == (1, "", f"healthd: {fault}\n")


@pytest.mark.parametrize("replay", REPLAYS.values(), ids=REPLAYS)
def test_a_replay_prints_what_comes_of_each_line(program, replay):
    names, most, *lines = replay.split("\n")
    lines = [tuple(line.split(" > ")) for line in lines]
    status, printed, said = ran(program, "replay", given="".join(f"{line}\n" for line in (names, most, *(line for line, _ in lines))))
    assert (status, said, len(printed.splitlines())) == (0, "", len(lines))
    assert list(zip((line for line, _ in lines), printed.splitlines())) == lines


@pytest.mark.parametrize("script, fault", rows(OPENINGS, lambda script, _: script))
@pytest.mark.parametrize("command", [["replay"], SERVE], ids=["replay", "serve"])
def test_a_script_that_goes_no_further_ends_by_the_fault_of_its_opening(program, command, script, fault):
    ends_by(ran(program, *command, given=script), fault)


@pytest.mark.parametrize("line", rows([(line,) for line in BAD_TO_REPLAY], "'{}'".format))
def test_a_line_that_is_bad_to_replay_ends_it(program, line):
    ends_by(ran(program, "replay", given=f"catalogue a b -\nmax 100\nopen a\n{line}"), "script line 4")


@pytest.mark.parametrize("body, number", rows(BAD_TO_SERVE, lambda body, _: body))
def test_a_line_that_is_bad_to_serve_ends_it(program, body, number):
    ends_by(ran(program, *SERVE, given=f"catalogue a -\nmax 9\n{body}"), f"script line {number}")


@pytest.mark.parametrize("opening, body, number, line, complaint", rows(BAD_TO_RUN, lambda _, body, *__: body))
def test_a_line_that_is_bad_to_run_is_told_with_what_is_expected(program, opening, body, number, line, complaint):
    ends_by(ran(program, "run", given=opening + body), f'script line {number}: "{line}": {complaint}')


@pytest.mark.parametrize("script, fault", rows(NO_SCRIPTS, lambda script, _: script))
def test_a_script_to_run_without_a_good_catalogue_is_none(program, script, fault):
    ends_by(ran(program, "run", given=script), fault)


@pytest.mark.parametrize("script, fault", rows(READ, lambda script, _: script))
def test_the_line_of_a_run_is_told_whose_change_is_not_made(program, script, fault):
    ends_by(ran(program, "run", given=script), fault)


def test_a_service_is_expected_as_often_as_the_script_says_last(start):
    script = "# one\ncatalogue a b c d e f g h i j k l m n -\r\n\n" + "".join(
        f"register {name or '-'} threshold 1\n{lines}\n" for name, (lines, _) in EXPECTED.items())
    server = start("--quiet", script=script)
    found = json.loads(server.program.run("status", "--control", server.control, "--json").stdout)
    found = {row["name"]: row["expected_seconds"] for row in found if row["name"] in EXPECTED}
    assert found == {name: seconds for name, (_, seconds) in EXPECTED.items()}


@pytest.mark.parametrize("body, fault", rows(UNEXPECTED, lambda body, _: body))
def test_a_line_expect_that_would_not_be_done_ends_the_run(program, body, fault):
    ends_by(ran(program, "run", given=f"catalogue a b -\n{body}"), fault)


@pytest.mark.parametrize("body, fault", rows(FIRST_OF_TWO, lambda body, _: body))
def test_of_two_lines_expect_that_would_not_be_done_the_first_counts(program, body, fault):
    ends_by(ran(program, "run", given=f"catalogue a b -\n{body}"), fault)
