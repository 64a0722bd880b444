"""What scripts/edits.py makes of a log of rt ci: a line that does not tell that a contract refused the edit fails the gate, though
rt ci passes it."""
import shutil
import subprocess
from pathlib import Path

import pytest

EDITS = ["hall/commits_twice.edit", "probe_core/broken_run_of_passes.edit", "probe_core/counts_all_failures.edit"]
LAST = EDITS[-1]
REASON = ("note: src/threshold.rt:85:5: it is not proved that what the function ensures holds when it returns "
          "(`returns-after-is_up-clause-memory`); the facts known there ")
REFUSED = f"refused, as it must be: {REASON}"
NAMED = ("refused, as it must be (only because a proof file names what the edit took away, so this says little of the contract: "
         "change a value and keep the names): ")
LIMITED = ("refused, as it must be (only by a limit of the prover, which gave no verdict, so this says less of the contract: "
           "choose a change that it refuses sooner): ")
BEFORE = "== probe_core\nfn probe_core::rule::is_count: proved\nrt: probe_core proved\nrt: probe_core: trying its must-fail edits (2)\n"
KEPT = ("rt: probe_core: 2 of its 2 must-fail edits were tried by an earlier run on this machine, "
        "and nothing that they stand on has changed\n")
AFTER = ("rt: ok; handles allowed: Threads, Wait, Net.; must-fail edits: 3 refused; every proof and must-fail edit was done in this run\n"
         "38 passed, 0 failed\n")


def of(edit, told):
    return f"rt: must-fail {edit}: {told}\n"


FIRST = "".join(of(edit, REFUSED) for edit in EDITS[:-1])
ALL = FIRST + of(LAST, REFUSED)
PASSED = (0, "edits: each of the 3 wrong bodies was refused by a contract\n")
MISSING = (1, f"edits: {LAST}: the log does not tell of it\n")


@pytest.fixture
def judged(folder, sources):
    """The status and the lines of the script, of a repository with these edits and a log with these lines."""
    def judge(lines):
        root = Path(folder)
        (root / "scripts").mkdir()
        script = shutil.copy(sources / "scripts/edits.py", root / "scripts")
        for edit in EDITS:
            crate, name = edit.split("/")
            must_fail = root / "crates" / crate / "must-fail"
            must_fail.mkdir(parents=True, exist_ok=True)
            (must_fail / name).touch()
        log = root / "log"
        log.write_text(BEFORE + lines + AFTER, encoding="utf-8")
        ran = subprocess.run([script, log], capture_output=True, text=True, timeout=60)
        return ran.returncode, ran.stdout + ran.stderr
    return judge


def test_edits_that_a_contract_refused_pass(judged):
    assert judged(ALL) == PASSED


def test_edits_that_an_earlier_run_tried_pass(judged):
    assert judged(KEPT + ALL) == PASSED


@pytest.mark.parametrize("told", [
    pytest.param("BAD EDIT: an 'old:' text is in src/threshold.rt 0 times, and not once", id="one that cannot be applied"),
    pytest.param("BAD EDIT: the prover cannot read the edited text, so no contract was tried: src/..", id="one that the prover cannot read"),
    pytest.param("BAD EDIT: it did not reach the prover; the first lines of what it said:\nsrc/threshold.rt:87:45: error[..]",
                 id="one that does not compile"),
    pytest.param("NOT TRIED: its check was killed, most likely for memory, so nothing is known of it: run this again",
                 id="one that was not tried"),
    pytest.param(NAMED + "./proofs/laws/..", id="one that takes a name away"),
    pytest.param(LIMITED + "./proofs/..", id="one on which the prover met a limit"),
    pytest.param("refused, as it must be", id="one that is refused without a reason"),
    pytest.param("NOT REFUSED: the crate is still proved with this edit (one that means the same as before cannot be refused: remove it)",
                 id="one that is proved"),
])
def test_an_edit_that_no_contract_refused_fails_and_what_rt_says_of_it_is_shown(judged, told):
    assert judged(FIRST + of(LAST, told)) == (1, f"edits: {LAST}: {told.splitlines()[0]}\n")


def test_an_edit_that_the_log_does_not_tell_of_fails(judged):
    assert judged(FIRST) == MISSING


def test_an_edit_of_the_same_name_in_another_crate_does_not_count_for_it(judged):
    assert judged(FIRST + of("hall/counts_all_failures.edit", REFUSED)) == MISSING


def test_a_file_that_is_no_edit_fails(judged):
    stray = ("crates/probe_core/must-fail/counts_all.edt: BAD EDIT: an edit stands right in must-fail/, and its name is of letters, digits, "
             "_, - and . and ends in .edit (or .md, if it is only to be read)")
    assert judged(f"{ALL}rt: {stray}\n") == (1, f"edits: {stray}\n")
