"""The package: it is the same each time, and what is in it works without the sources."""
import contextlib
import filecmp
import os
import re
import shutil
import signal
import subprocess
from pathlib import Path

import pytest

from support.command import ran_other
from support.program import Program

pytestmark = pytest.mark.timeout(500)  # a package may take long to pack


def test_the_man_page_and_the_completions_are_what_the_help_makes(program, sources):
    assert ran_other(f"{sources}/packaging/pages.py", str(program), "--check") == (0, "", "")


@pytest.mark.skipif(not shutil.which("groff"), reason="groff is not installed")
def test_groff_reads_the_man_page_without_a_complaint(sources):
    assert ran_other("groff", "-man", "-ww", "-z", f"{sources}/packaging/healthd.1") == (0, "", "")


def test_the_same_is_packed_again_to_the_same_bytes(pack, package, folder):
    again = f"{folder}/again.tar.gz"
    assert pack(again) == (0, f"{again}\n", "")
    assert filecmp.cmp(package, again, shallow=False)


def test_the_unpacked_program_runs(unpacked, version):
    assert ran_other(f"{unpacked}/bin/healthd", "--version") == (0, version, "")


def test_an_example_runs_from_the_package_with_the_program_of_it(unpacked, sources):
    prints = (sources / "examples/maintenance/prints").read_text(encoding="utf-8")
    assert ran_other(f"{unpacked}/examples/maintenance/run") == (0, prints, "")


def test_the_demo_runs_from_the_package_until_it_is_interrupted(unpacked):
    path = f"{unpacked}/examples/demo/run"
    with subprocess.Popen([path], stdin=subprocess.DEVNULL, stdout=subprocess.PIPE, stderr=subprocess.PIPE, text=True, start_new_session=True,
                          env=Program(path).environment) as demo:
        try:
            for line in demo.stdout:
                if "Ctrl-C" in line:
                    break
            demo.send_signal(signal.SIGINT)
            assert (*demo.communicate(timeout=200), demo.returncode) == ("$ healthd stop\nstopping\n", "", 0)
        finally:
            with contextlib.suppress(ProcessLookupError):
                os.killpg(demo.pid, signal.SIGKILL)


def test_its_readme_says_what_is_to_be_done_with_a_package_and_not_with_the_sources(unpacked):
    readme = Path(unpacked, "README.md").read_text(encoding="utf-8")
    assert [text for text in ("sudo ./install /usr/local", "make install", "make package", "-->") if text in readme] == ["sudo ./install /usr/local"]


@pytest.mark.parametrize("page", ["README.md", "docs/OPERATE.md", "docs/reference/commands.md"])
def test_the_links_of_its_documents_lead_somewhere(unpacked, page):
    path = Path(unpacked, page)
    links = re.findall(r"\]\(([^)\s#]+)", path.read_text(encoding="utf-8"))
    assert [link for link in links if not os.path.exists(path.parent / link)] == []
