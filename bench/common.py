"""What the measurements share. Their servers and clients are those of the tests: whoever imports this can import tests/support."""
import os
import sys

HERE = os.path.dirname(os.path.realpath(__file__))
sys.path.insert(0, f"{HERE}/../tests")

from support import waiting  # noqa: E402
from support.program import Program  # noqa: E402

HEALTHD = Program(os.environ.get("HEALTHD", f"{HERE}/../out/healthd"))


def holds(name, fact, why=""):
    """Ends a measurement where something is not as it has to be."""
    if not fact:
        print(f"FAILED measure {name}: {why}", flush=True)
        sys.exit(1)


def until(name, read, expected, patience=10):
    """Waits for what has to come, and ends the measurement where it does not."""
    try:
        waiting.until(read, expected, patience)
    except AssertionError:
        holds(name, False, f"{read()}, and not {expected}")
