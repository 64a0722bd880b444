"""The completions that are installed, as shells read them."""
import shutil

import pytest

from support.command import ran_other
from support.naming import command_line

pytestmark = pytest.mark.timeout(500)  # a package may take long to pack

# What bash does where it completes the last of the words that it is given.
COMPLETE = """
. "$1"; shift
COMP_WORDS=("$@") COMP_CWORD=$(($# - 1))
_healthd
printf '%s\\n' "${COMPREPLY[@]}"
"""


@pytest.mark.parametrize("words, expected", [
    (("his",), ["history"]),
    (("run", "--jou"), ["--journal"]),
    (("ask", "--expect", "S"), ["SERVING", "SERVICE_UNKNOWN"]),
    (("ask", "--port", ""), [""]),
    (("run", "--script", "PREFIX/bin/h"), ["PREFIX/bin/healthd"]),
], ids=command_line)
def test_bash_completes(prefix, words, expected):
    words, expected = ([word.replace("PREFIX", prefix) for word in each] for each in (words, expected))
    completions = f"{prefix}/share/bash-completion/completions/healthd"
    assert ran_other("bash", "-c", COMPLETE, "bash", completions, "healthd", *words) == (0, "".join(f"{it}\n" for it in expected), "")


@pytest.mark.parametrize("shell, file", [("zsh", "zsh/site-functions/_healthd"), ("fish", "fish/vendor_completions.d/healthd.fish")])
def test_its_completions_are_read_by(prefix, shell, file):
    if not shutil.which(shell):
        pytest.skip(f"{shell} is not installed")
    assert ran_other(shell, "-n", f"{prefix}/share/{file}") == (0, "", "")
