"""What `make` does, in a repository of three crates with a stand-in for rt."""
import os
import re
import shutil
import signal
import subprocess
from pathlib import Path

import pytest

from support.command import ran_other
from support.waiting import until

pytestmark = pytest.mark.timeout(300)

RT, EDITS = "7 passed, 0 failed", "edits: each of the 0 wrong bodies was refused by a contract"


class Repository:
    """Its crate healthd needs the crate low. A source with the word wrong is refused by the stand-in, and one with the word slow takes long."""

    def __init__(self, folder, sources):
        self.top, self.noted = Path(folder, "repository"), Path(folder, "noted")
        shutil.copytree(sources / "scripts", self.top / "scripts")
        for name in ("Makefile", "HANDLES"):
            shutil.copy(sources / name, self.top)
        self.write("crates.txt", "# lowest first\nlow:\nbeside:\nhealthd: low\n")
        for source in ("low/src/lib", "beside/src/lib", "healthd/src/main"):
            self.write(f"crates/{source}.rt", "// a source\n")
        self.write("scripts/lint", "#!/bin/sh\necho linted\n")
        self.write("scripts/test", '#!/bin/sh\n[ "$*" = --install ] || echo tested\n')
        (self.top / "tools").mkdir()
        shutil.copy(sources / "tests/support/rt.sh", self.top / "tools/rt")
        (self.top / "tools/rt").chmod(0o755)
        subprocess.run(["git", "init", "-q", self.top], check=True)
        self.command = ("make", "--no-print-directory", "-C", str(self.top))
        self.env = {"PATH": f"{self.top}/tools:{os.environ['PATH']}", "NOTED": str(self.noted), "XDG_CACHE_HOME": f"{folder}/cache"}

    def write(self, path, text):
        (self.top / path).parent.mkdir(parents=True, exist_ok=True)
        # The mode of a script that it replaces stays.
        (self.top / path).write_text(text, encoding="utf-8")

    def change(self, text, crate="low"):
        self.write(f"crates/{crate}/src/lib.rt", f"// {text}\n")

    def make(self, *words):
        return ran_other(*self.command, *words, env=self.env)

    def interrupted(self, *words):
        """What make says where it is interrupted, as by Ctrl-C, while rt is at work, and whether rt goes on."""
        self.noted.write_text("", encoding="utf-8")
        with subprocess.Popen([*self.command, *words], stdin=subprocess.DEVNULL, stdout=subprocess.DEVNULL, stderr=subprocess.PIPE, text=True,
                              start_new_session=True, env={**os.environ, **self.env}) as making:
            try:
                until(lambda: bool(re.search(r"(?m)^\d+\n\Z", self.noted.read_text(encoding="utf-8"))), True, 200)
            finally:
                os.killpg(making.pid, signal.SIGINT)
            said = making.stderr.read()
        return said, os.path.exists(f"/proc/{self.noted.read_text(encoding='utf-8').split()[-1]}")

    def built(self, *words):
        return ran_other(f"{self.top}/out/healthd", *words)

    def tried(self, *words, **env):
        return ran_other(f"{self.top}/out/try/healthd", *words, env=env)


@pytest.fixture
def repository(folder, sources):
    return Repository(folder, sources)


@pytest.fixture
def built(repository):
    """One whose program is built."""
    assert repository.make().status == 0
    return repository


@pytest.fixture
def tried(repository):
    """One whose program was made unproved."""
    made = repository.make("try")
    assert made.status == 0 and "try: made out/try/healthd" in made.said, made
    return repository


def says(command, status, *texts):
    """A command has ended so, and has said each of these."""
    assert command.status == status and not [text for text in texts if text not in command.said], command


# make

def test_make_builds_and_says_how_far_it_is_and_passes_on_what_rt_notes(repository):
    says(repository.make(), 0, "build: built out/healthd", "build: 1 of 2 crates, 0 min: low is done",
         "build: 2 of 2 crates, 0 min: healthd is done", "build: note: little room\n")


def test_make_builds_the_crates_that_the_program_needs_and_no_others(built):
    assert built.noted.read_text(encoding="utf-8") == "low\nhealthd\n"


def test_the_program_is_in_out_and_beside_it_what_it_was_built_from(built):
    assert built.built("ask", "--port", "1") == (0, "ran ask --port 1\n", "")
    lines = dict(line.split(" ", 1) for line in (built.top / "out/BUILD").read_text(encoding="utf-8").splitlines())
    assert sorted(lines) == ["built", "commit", "program", "sources", "toolchain"]
    assert len(lines["sources"]) == 64


def touch(repository):
    os.utime(repository.top / "crates/low/src/lib.rt")


@pytest.mark.parametrize("act", [
    pytest.param(lambda _: None, id="it was built"), pytest.param(touch, id="a file was only touched"),
    pytest.param(lambda repository: repository.change("changed", "beside"), id="a crate was changed that the program does not need"),
])
def test_make_builds_nothing_again_where(built, act):
    act(built)
    says(built.make(), 0, "nothing has changed")


def test_a_build_that_fails_says_why_and_leaves_the_program_that_there_was_and_what_is_mended_is_built_once(built):
    built.change("wrong")
    says(built.make(), 2, "error: not proved", "build: failed; the whole log is ")
    assert built.built("ask") == (0, "ran ask\n", "")
    built.change("right")
    says(built.make(), 0, "build: built out/healthd")
    says(built.make(), 0, "nothing has changed")


@pytest.mark.parametrize("words, said", [((), "build: interrupted; make resumes\n"), (("try",), "try: interrupted\n")], ids=["make", "make try"])
def test_a_build_that_is_interrupted_says_so_and_rt_has_ended_and_what_was_built_before_is_up_to_date_again(built, words, said):
    before = (built.top / "crates/low/src/lib.rt").read_text(encoding="utf-8")
    built.change("slow")
    found, is_alive = built.interrupted(*words)
    assert said in found and not is_alive
    built.write("crates/low/src/lib.rt", before)
    says(built.make(), 0, "nothing has changed")


# make try

def test_make_try_makes_a_program_that_says_that_it_is_unproved(tried):
    command = tried.tried("a b")
    assert command.printed == "ran a b\n"
    says(command, 0, "unproved", "make")


def test_a_program_that_is_unproved_does_not_say_so_where_somebody_says_that_he_knows(tried):
    assert tried.tried(HEALTHD_UNPROVED="1") == (0, "ran\n", "")


def test_make_try_makes_none_again_where_nothing_has_changed(tried):
    says(tried.make("try"), 0, "up to date")
    assert tried.noted.read_text(encoding="utf-8").splitlines() == [f"{tried.top}/crates/healthd"]


def test_a_try_that_fails_says_why_and_leaves_what_there_was(tried):
    tried.change("wrong")
    says(tried.make("try"), 2, "error: no such name")
    assert tried.tried(HEALTHD_UNPROVED="1") == (0, "ran\n", "")


# make check

def test_make_check_fails_where_rt_ci_fails_and_goes_no_further(repository):
    repository.change("wrong")
    status, printed, _ = repository.make("check")
    assert status == 2 and "error: not proved" in printed and "tested" not in printed, printed


def test_make_check_lints_and_passes_rts_lines_on_and_counts_the_edits_and_then_has_the_tests_and_what_it_has_proved_is_built(repository):
    status, printed, _ = repository.make("check")
    assert (status, printed.splitlines()[:1], printed.splitlines()[-3:]) == (0, ["linted"], [RT, EDITS, "tested"])
    assert f"linted\n{(repository.top / 'out/check.log').read_text(encoding='utf-8')}{EDITS}\ntested\n" == printed
    says(repository.make(), 0, "nothing has changed")


def test_make_check_integration_no_is_rt_ci_alone(repository):
    printed = repository.make("check", "INTEGRATION=no").printed
    assert printed.splitlines()[-2:] == [RT, EDITS] and "linted" not in printed, printed
