"""What `replay` prints of a script, and how it ends where it can read none."""
import os

import pytest

from support.command import ran

# Each rule shows in what it alone does: how many failures it bears, what it follows, on whom it depends, how many passes take it up again, and
# how it starts.
ORDERS = """catalogue a b -
max 100
register a threshold 2
register b manual
register - depends a b
fail a
pass a
fail a
check a
fail a
check a
check -
check zz
open zz
step 0
board
"""
ORDERED = "done\n" * 6 + "serving\ndone\nnot serving\nnot serving\nnot found\nwatch 0 service unknown\nnone\n30064771110\n"
RULES = """catalogue a b c d -
max 100
register a threshold 2
register b manual
register c depends a
fail a
check a
up a
fail a
check a
check c
fail b
down b
check b
pass c
up c
register d threshold 1 2 unknown
check d
fail d
pass d
check d
pass d
check d
"""
RULED = ("done\n" * 4 + "serving\nwrong kind\ndone\nnot serving\nnot serving\nwrong kind\ndone\nnot serving\nwrong kind\nwrong kind\n"
         "done\nunknown\ndone\ndone\nnot serving\ndone\nserving\n")
# The longest script, of 65,536 bytes: lines of seven and of eight bytes make it full.
ROOM = 65_536 - len(ORDERS)
SEVENS = -ROOM % 8
EIGHTS = (ROOM - 7 * SEVENS) // 8
LONGEST = ORDERS + "fail a\n" * SEVENS + "check a\n" * EIGHTS
FAULTS = {
    "a byte that is no text": (b"\xff", "script not text"), "a catalogue without the empty name": (b"catalogue a", "catalogue fault 5"),
    "another line than max": (b"catalogue a -\nmin 3", "script line 2"), "a step of no watch": (b"catalogue a -\nmax 1\nstep 0", "script line 3"),
    "a line of a script to serve": (b"catalogue a -\nmax 1\ngo\n", "script line 3"), "65,537 spaces": (b" " * 65_537, "script too long"),
    "the longest script and a line feed": (LONGEST.encode() + b"\n", "script too long"),
}


@pytest.mark.parametrize("script, printed", [(ORDERS, ORDERED), (RULES, RULED)], ids=["orders", "rules"])
def test_a_replay_prints_what_comes_of_each_line(program, script, printed):
    assert ran(program, "replay", given=script) == (0, printed, "")


@pytest.mark.parametrize("script, fault", FAULTS.values(), ids=FAULTS)
def test_a_replay_ends_by_the_fault_of_its_script(program, script, fault):
    assert ran(program, "replay", given=script) == (1, "", f"healthd: {fault}\n")


def test_a_script_of_65_536_bytes_is_replayed(program):
    assert len(LONGEST) == 65_536
    assert ran(program, "replay", given=LONGEST) == (0, ORDERED + "done\n" * SEVENS + "not serving\n" * EIGHTS, "")


def test_a_replay_says_where_its_script_cannot_be_read(program):
    opened = os.open("/", os.O_RDONLY)
    try:
        assert ran(program, "replay", stdin=opened) == (1, "", "healthd: read\n")
    finally:
        os.close(opened)
