#!/usr/bin/env python3
"""Fails unless a log of rt ci tells of each wrong body in crates/*/must-fail that a contract refused it.

    scripts/edits.py LOG

rt ci passes an edit that cannot be applied, one that is refused only because a proof names what the edit took away, and one on
which the prover met a limit. It says so in the edit's line, also where an earlier run tried the edit.
"""
import re
import sys
from pathlib import Path

ROOT = Path(__file__).resolve().parent.parent
REFUSED = "refused, as it must be: "


def wrong_in(log, edits):
    """What the log tells of each edit that no contract refused, and of files that are no edits."""
    told = dict(re.findall(r"(?m)^rt: must-fail (\S+): (.*)$", log))
    found = {edit: told.get(edit, "the log does not tell of it") for edit in edits}
    wrong = [f"{edit}: {what}" for edit, what in found.items() if not what.startswith(REFUSED)]
    return wrong + re.findall(r"(?m)^rt: (crates/\S+: BAD EDIT: .*)$", log)


def main(log):
    edits = [f"{it.parts[-3]}/{it.name}" for it in sorted(ROOT.glob("crates/*/must-fail/*.edit"))]
    wrong = wrong_in(Path(log).read_text(encoding="utf-8", errors="replace"), edits)
    for line in wrong:
        print(f"edits: {line}")
    if not wrong:
        print(f"edits: each of the {len(edits)} wrong bodies was refused by a contract")
    return 1 if wrong else 0


if __name__ == "__main__":
    sys.exit(main(sys.argv[1]))
