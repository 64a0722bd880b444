"""The image: what the Containerfile copies is all that the program needs."""
import json
import os
import re
import shutil
from pathlib import Path

import pytest

from support.command import ran_other

pytestmark = pytest.mark.timeout(500)  # a package may take long to pack

LIBRARIES = "lib/x86_64-linux-gnu"


@pytest.fixture(scope="module")
def containerfile(unpacked):
    return Path(unpacked, "Containerfile").read_text(encoding="utf-8")


@pytest.fixture(scope="module")
def needed(program):
    """The libraries that the program needs beside the C library."""
    return set(re.findall(r"^\t(\S+) => ", ran_other("ldd", str(program)).printed, re.M)) - {"libc.so.6"}


@pytest.fixture(scope="module")
def image(containerfile, unpacked, room, needed):
    """The folder of the files that the Containerfile copies."""
    copies = re.findall(r"(?m)^COPY (--from=system )?(?:--chown=\S+ )?(/?\S+) (/\S*)$", containerfile)
    copied = [(source if of_system else f"{unpacked}/{source}", to) for of_system, source, to in copies if source != "/made"]
    for source, to in copied + [(f"/{LIBRARIES}/{name}", f"/{LIBRARIES}/{name}") for name in needed]:
        os.makedirs(os.path.dirname(f"{room}/image{to}"), exist_ok=True)
        shutil.copy(source, f"{room}/image{to}")
    return f"{room}/image"


def test_the_program_needs_the_c_library_alone(program, needed):
    assert needed - ({"libm.so.6", "libgcc_s.so.1"} if program.has_sanitizer else set()) == set()


@pytest.mark.root
def test_the_program_runs_where_there_is_nothing_else(program, image, version):
    status, printed, said = ran_other("chroot", image, "/healthd", "--version")
    # The memory checks of a program complain there of their own.
    assert (status, printed, "" if program.has_sanitizer else said) == (0, version, "")


@pytest.mark.root
def test_the_program_runs_by_what_starts_it_in_the_image(image, containerfile, version):
    entry = json.loads(re.search(r"(?m)^ENTRYPOINT (.*)$", containerfile)[1])
    assert ran_other("chroot", image, *entry, "--version")[:2] == (0, version)


@pytest.mark.root
def test_the_program_answers_a_body_in_the_image(image):
    assert ran_other("chroot", image, "/healthd", "body", "0000000000", "=serving")[:2] == (
        0, "00000000020801800000000f677270632d7374617475733a300d0a\n")


@pytest.mark.root
def test_a_descriptor_that_is_closed_ends_the_program_where_there_is_no_null_device(image):
    command = ran_other("bash", "-c", 'exec chroot "$1" /healthd --version >&-', "bash", image)
    assert (command.status, command.printed, command.last) == (1, "", "healthd: No such file or directory (os error 2)\n")
