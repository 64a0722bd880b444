"""`run --check` says what a run would begin with, and why it would fail, beside a server too. It binds, locks and writes nothing."""
import os
import subprocess

import pytest

SCRIPT = "catalogue db api -\nregister db threshold 2\nregister api manual\nregister - depends db api\nexpect db 15\n"
WHOLE = "service db\nservice api\nservice -\n"
LEFT_OUT = "healthd: - is in the catalogue, but not registered\n"
# A script that registers not all names.
SOME = "catalogue db spare -\nregister db manual\n"
MISSING = "healthd: spare is in the catalogue, but not registered\n" + LEFT_OUT


@pytest.fixture
def put(folder):
    """Puts a file into the folder."""
    def put_one(name, content):
        path = f"{folder}/{name}"
        with open(path, "wb") as file:
            file.write(content if isinstance(content, bytes) else content.encode())
        return path
    return put_one


@pytest.fixture
def script(put):
    return put("script", SCRIPT)


@pytest.fixture
def journal(folder):
    return f"{folder}/journal"


@pytest.fixture
def ran(program, folder):
    """The exit status of a run in the folder, and what it prints and says."""
    def run(*words, given=None):
        options = {"stdin": subprocess.DEVNULL} if given is None else {"input": given}
        done = subprocess.run([str(program), "run", *words], capture_output=True, text=True, timeout=60, cwd=folder, env=program.environment,
                              **options)
        return done.returncode, done.stdout, done.stderr
    return run


@pytest.fixture
def check(ran):
    return lambda *words, **given: ran("--check", *words, **given)


@pytest.fixture
def state(folder):
    """All that is in the folder."""
    def read():
        found = {}
        for at, _, names in os.walk(folder):
            for name in names:
                path = f"{at}/{name}"
                status, content = os.lstat(path), b""
                if os.path.isfile(path):
                    with open(path, "rb") as file:
                        content = file.read()
                found[path] = (status.st_mtime_ns, status.st_ino, content)
        return found
    return read


def test_a_script_alone(check, script, state):
    before = state()
    assert check("--script", script) == (0, "listen 127.0.0.1:8080\n" + WHOLE, "")
    assert state() == before


def test_a_script_on_standard_input(check, state):
    assert check("--listen", "[::1]:80", given=SCRIPT) == (0, "listen [::1]:80\n" + WHOLE, "")
    assert state() == {}


def test_all_places_are_told_and_of_a_journal_that_is_not_there_no_file_is_made(check, folder, script, state):
    before = state()
    assert check("--script", script, "--listen", "0.0.0.0:1", "--plain", "127.0.0.1:2", "--control", f"{folder}/control",
                 "--report", "127.0.0.1:3", "--journal", "journal") == (
        0, f"journal journal: no entries yet\nlisten 0.0.0.0:1\nplain 127.0.0.1:2\ncontrol {folder}/control\nreport 127.0.0.1:3\n" + WHOLE, "")
    assert state() == before


def test_a_journal_that_is_an_empty_file(check, put, script):
    nothing = put("nothing", "")
    assert check("--script", script, "--journal", nothing) == (0, f"journal {nothing}: no entries yet\nlisten 127.0.0.1:8080\n{WHOLE}", "")


# Beside a server that has the places and the journal.

@pytest.fixture
def server(start, journal):
    """A server with a history of five entries, the last two of which are no part of its script."""
    server = start("--journal", journal, script=SCRIPT)
    server.tell("fail", "db")
    server.tell("down", "api")
    return server


@pytest.fixture
def beside(check, server, script, journal):
    """A check of all that the server has."""
    return lambda: check("--script", script, "--listen", f"127.0.0.1:{server.port}", "--control", server.control, "--journal", journal)


def test_beside_a_server_that_has_the_places_and_the_journal_they_are_left_alone_and_it_serves_on(server, beside, journal, state):
    before = state()
    assert beside() == (
        0, f"journal {journal}: 5 entries\nlisten 127.0.0.1:{server.port}\ncontrol {server.control}\n" + WHOLE, "")
    assert state() == before
    assert server.tell("check", "api") == ("not serving", 0)


def test_a_service_that_the_history_has_retired_is_told_as_left_out(server, beside, journal):
    server.tell("retire", "-")
    assert beside() == (
        0, f"journal {journal}: 6 entries\nlisten 127.0.0.1:{server.port}\ncontrol {server.control}\nservice db\nservice api\n", LEFT_OUT)


@pytest.fixture
def history(server, journal):
    """The journal of a server that has ended, with six entries."""
    server.tell("retire", "-")
    server.stop()
    return journal


def test_a_run_that_goes_on_from_a_history_tells_which_service_that_has_retired_too(start, history):
    assert start("--journal", history, script=SCRIPT).said() == LEFT_OUT


def test_beside_a_history_a_setup_that_would_be_refused_passes_because_a_run_makes_no_change_of_it(check, start, put, history):
    late = SCRIPT + "pass api\n"
    assert check("--script", put("late", late), "--journal", history) == (
        0, f"journal {history}: 6 entries\nlisten 127.0.0.1:8080\nservice db\nservice api\n", LEFT_OUT)
    assert start("--journal", history, script=late).tell("check", "api") == ("not serving", 0)


# Names that nothing registers.

def test_names_that_the_script_does_not_register_are_told(check, put):
    assert check("--script", put("some", SOME)) == (0, "listen 127.0.0.1:8080\nservice db\n", MISSING)


def test_a_run_tells_names_that_the_script_does_not_register_too(start):
    assert start(script=SOME).said() == MISSING


def test_a_run_with_a_new_journal_tells_them_too_and_one_that_goes_on_tells_what_its_history_leaves_out(start, journal):
    server = start("--journal", journal, script=SOME)
    assert server.said() == MISSING
    server.tell("register", "spare", "manual")
    server.stop()
    assert start("--journal", journal, script=SOME).said() == LEFT_OUT


# What a run fails by. The words have the names of files in the folder, which are put there first.

FILES = {
    "empty": "", "wrong": "catalogue a\nwalk a\n", "refused": "catalogue a\nup a\n", "expects": "catalogue a\nregister a manual\nexpect a 5\n",
    "stale": SCRIPT + "expect api 5\n", "other": "catalogue api db -\n", "more": "catalogue db api - x\n", "order": "catalogue db - api\n",
    "less": "catalogue db -\n",
}
FAILURES = [
    ("a script that is missing", ["--script", "none"]),
    ("a script without a catalogue", ["--script", "empty"]),
    ("a line that is none", ["--script", "wrong"]),
    ("a change that is refused", ["--script", "refused"]),
    ("an expectation that cannot be", ["--script", "expects"]),
    ("a journal that is a folder", ["--script", "script", "--journal", "folder"]),
    ("a journal that is something else", ["--script", "script", "--journal", "script"]),
    ("a journal that is damaged", ["--script", "script", "--journal", "damaged"]),
    ("a journal that is a link", ["--script", "script", "--journal", "link"]),
    ("a journal beside which an expectation cannot be", ["--script", "stale", "--journal", "journal"]),
    ("a journal in a folder that is missing", ["--script", "script", "--journal", "none/journal"]),
    ("a journal of other services", ["--script", "other", "--journal", "journal"]),
    ("a journal of one service less", ["--script", "more", "--journal", "journal"]),
    ("a journal of the same services in another order", ["--script", "order", "--journal", "journal"]),
    ("a journal of one service more", ["--script", "less", "--journal", "third"]),
    ("options that are refused", ["--script", "script", "--control", "nowhere"]),
]


@pytest.fixture
def files(start, folder, put, script, history):
    """The files by which a run fails, and a journal of other services."""
    for name, text in FILES.items():
        put(name, text)
    start("--journal", f"{folder}/third", script="catalogue db - api\nregister db manual\n").stop()
    with open(history, "rb") as file:
        put("damaged", file.read()[:40] + b"x" * 40)
    os.symlink(history, f"{folder}/link")
    os.mkdir(f"{folder}/folder")
    return folder


@pytest.mark.parametrize("words", [pytest.param(words, id=name) for name, words in FAILURES])
def test_it_fails_as_a_run_does_and_prints_nothing_and_leaves_all_alone(check, ran, files, state, words):
    words = [word if word.startswith("-") or word in ("none", "nowhere") else f"{files}/{word}" for word in words]
    before = state()
    status, out, err = check(*words)
    assert state() == before
    expected = ran("--listen", "127.0.0.1:0", *words)
    assert (status, out, err.splitlines()[-1:]) == (expected[0], "", expected[2].splitlines()[-1:])
    assert status in (1, 2)
    # A run that fails so leaves all alone too.
    assert state() == before


def test_it_fails_where_nothing_can_be_printed(program, script):
    with open("/dev/full", "w", encoding="utf-8") as full:
        done = subprocess.run([str(program), "run", "--check", "--script", script], stdin=subprocess.DEVNULL, stdout=full, stderr=subprocess.PIPE,
                              text=True, timeout=60)
    assert (done.returncode, done.stderr) == (1, "healthd: write: no storage space\n")
