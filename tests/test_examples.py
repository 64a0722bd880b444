"""Each example prints what its folder says, and the demonstration serves meanwhile what it shows."""
import contextlib
import os
import re
import signal
import subprocess
import urllib.request
from pathlib import Path

import pytest

EXAMPLES = Path(__file__).resolve().parent.parent / "examples"
PRINTS = (EXAMPLES / "demo/prints").read_text(encoding="utf-8")
NAMES = sorted(run.parent.name for run in EXAMPLES.glob("*/run") if run.parent.name != "demo")


@pytest.fixture
def environment(program, folder):
    return {**program.environment, "HEALTHD": str(program), "TMPDIR": folder}


@pytest.mark.parametrize("name", NAMES)
def test_an_example_ends_well_and_prints_what_stands_in_its_folder(environment, name):
    ran = subprocess.run([EXAMPLES / name / "run"], capture_output=True, text=True, timeout=60, env=environment)
    assert (ran.returncode, ran.stderr) == (0, "")
    assert ran.stdout == (EXAMPLES / name / "prints").read_text(encoding="utf-8")


# The demonstration, which goes on serving after its last line, until it is interrupted.

class Demo:
    def __init__(self, environment):
        self.process = subprocess.Popen([EXAMPLES / "demo/run"], stdin=subprocess.DEVNULL, stdout=subprocess.PIPE, stderr=subprocess.PIPE,
                                        text=True, env=environment, start_new_session=True)
        self.shown = ""
        while line := self.process.stdout.readline():
            self.shown += line
            if "Ctrl-C" in line:
                break

    def interrupt(self):
        """Its exit status, all that it has printed, and what it has said."""
        self.process.send_signal(signal.SIGINT)
        rest, said = self.process.communicate(timeout=60)
        return self.process.returncode, self.shown + rest, said

    def close(self):
        """Ends it with its server, where the test has not done so."""
        with contextlib.suppress(ProcessLookupError):
            os.killpg(self.process.pid, signal.SIGKILL)
        self.process.wait(20)


@pytest.fixture
def demo(environment):
    with contextlib.closing(Demo(environment)) as demo:
        yield demo


def without_places(text):
    """A text of the demonstration without what differs from run to run: its folder, its ports and times."""
    text = re.sub(r"/[^:=\s]*/healthd\.\w{6}\b", "FOLDER", text)
    text = re.sub(r"--port \d+|127\.0\.0\.1:\d+", "PORT", text)
    return re.sub(r"\d{4}-\d\d-\d\d[T ][\d:.]+Z", "TIME", text)


def test_the_page_of_the_demo_is_there(demo):
    with urllib.request.urlopen(re.search(r"http://\S+", demo.shown)[0], timeout=20) as answer:
        assert b"<title>healthd" in answer.read()


def test_the_commands_of_the_demo_can_be_pasted_and_are_answered_as_it_shows_but_for_the_numbers_of_entries(program, demo):
    commands = re.findall(r"(?m)^\$ (.*)$", demo.shown)
    ran = subprocess.run(["bash", "-e"], input="\n".join(commands), capture_output=True, text=True, timeout=60, env=program.environment)
    answers = "".join(line for line in demo.shown.splitlines(keepends=True) if line[0] not in "$#")
    found, expected = [re.sub(r"entry \d+", "ENTRY", without_places(text)) for text in (ran.stdout, answers)]
    assert (ran.returncode, ran.stderr, found) == (0, "", expected)
    assert demo.interrupt()[::2] == (0, "")


def test_the_demo_prints_what_stands_in_its_folder_and_ends_well_where_it_is_interrupted(demo):
    status, printed, said = demo.interrupt()
    assert (status, said) == (0, "")
    assert without_places(printed) == without_places(PRINTS)


def test_what_the_demo_prints_fits_on_one_screen():
    lines = PRINTS.splitlines()
    assert len(lines) < 40 and max(map(len, lines)) < 100


def test_the_readme_shows_the_demo_up_to_its_end():
    assert "".join(f"    {line}\n" for line in PRINTS.split("\n")[:-3]) in (EXAMPLES / "../README.md").read_text(encoding="utf-8")
