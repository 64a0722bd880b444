"""What `install` puts where, and that systemd's own tools take its units."""
import contextlib
import os
import re
import shutil
import stat
import subprocess
from pathlib import Path

import pytest

from support.command import ran_other
from support.serving import free_port
from support.waiting import until

pytestmark = pytest.mark.timeout(500)  # a package may take long to pack

KINDS = ("service", "socket")
EXAMPLES = "share/doc/healthd/examples/"
EXPECTED = [
    "bin/healthd", "lib/systemd/system/healthd.service", "lib/systemd/system/healthd.socket", "lib/systemd/system/healthd@.service",
    "lib/systemd/system/healthd@.socket", "share/bash-completion/completions/healthd", "share/doc/healthd/CHANGELOG.md",
    "share/doc/healthd/LICENSE-APACHE", "share/doc/healthd/LICENSE-MIT", "share/doc/healthd/alerts.yml",
    "share/fish/vendor_completions.d/healthd.fish", "share/man/man1/healthd.1", "share/zsh/site-functions/_healthd"]


def files_below(folder):
    return sorted(os.path.relpath(f"{at}/{name}", folder) for at, _, names in os.walk(folder) for name in names)


def without_examples(folder):
    return [name for name in files_below(folder) if not name.startswith(EXAMPLES)]


@pytest.fixture
def unit(prefix):
    """The text of a unit that was installed."""
    return lambda name: Path(prefix, "lib/systemd/system", name).read_text(encoding="utf-8")


def test_it_is_installed_and_again_over_itself(install, folder, version):
    for _ in range(2):
        assert install(f"{folder}/prefix") == (0, f"installed {version.strip()} below {folder}/prefix\n", "")


def test_all_that_belongs_to_it_is_there(prefix):
    assert without_examples(prefix) == EXPECTED


def test_the_examples_are_there(prefix, sources):
    assert files_below(f"{prefix}/{EXAMPLES}") == files_below(sources / "examples")


def test_the_installed_program_runs(prefix, version):
    assert ran_other(f"{prefix}/bin/healthd", "--version") == (0, version, "")


def test_only_programs_may_be_run(prefix):
    modes = {name: stat.S_IMODE(os.stat(f"{prefix}/{name}").st_mode) for name in files_below(prefix)}
    assert [name for name, mode in modes.items() if mode != 0o644] == [name for name in modes if name == "bin/healthd" or name.endswith("/run")]


def test_below_a_folder_it_stands_as_the_prefix_says_and_its_unit_names_no_folder_of_the_image(install, folder):
    assert install("/usr", DESTDIR=folder).status == 0
    assert without_examples(f"{folder}/usr") == EXPECTED
    assert " /usr/bin/healthd run " in Path(folder, "usr/lib/systemd/system/healthd.service").read_text(encoding="utf-8")


@pytest.mark.parametrize("words", [(), ("usr",), ("/usr", "/opt")], ids=["no prefix", "a relative prefix", "two prefixes"])
def test_it_is_refused_with(install, words):
    assert install(*words).status == 2


# The units.

@pytest.mark.parametrize("name", ["healthd.service", "healthd@.service"])
def test_a_service_starts_the_installed_program_with_the_signals_blocked_that_stop_it(unit, prefix, name):
    starts = f"Start=/usr/bin/env --block-signal=TERM --block-signal=INT {prefix}/bin/healthd run"
    assert re.findall(r"(?m)^Exec(\w+=.*?) --control", unit(name)) == [starts]


@pytest.mark.parametrize("kind", KINDS)
def test_a_unit_that_is_named_by_its_port_is_the_other_one_but_for_its_places(unit, kind):
    def lines(text):
        return [line for line in text.splitlines() if not line.startswith("#")]
    named = unit(f"healthd@.{kind}")
    for place, other in (("@%i", ""), ("-%i", ""), ("/%i", ""), (" at port %i", ""), (":%i", ":8080")):
        named = named.replace(place, other)
    assert lines(named) == lines(unit(f"healthd.{kind}"))


@pytest.mark.skipif(not shutil.which("systemd-analyze"), reason="systemd-analyze is not installed")
def test_systemd_finds_no_fault_in_the_units(prefix, folder):
    units = f"{prefix}/lib/systemd/system"
    # systemd's tool would take a letter for the port.
    named = [shutil.copy(f"{units}/healthd@.{kind}", f"{folder}/healthd@8090.{kind}") for kind in KINDS]
    assert ran_other("systemd-analyze", "verify", "--man=no", *(f"{units}/healthd.{kind}" for kind in KINDS), *named) == (0, "", "")


@contextlib.contextmanager
def activated(*command, port):
    """What systemd's tool starts with a socket of this port."""
    activating = subprocess.Popen(["systemd-socket-activate", "-l", f"127.0.0.1:{port}", *command], stdin=subprocess.DEVNULL, stdout=subprocess.PIPE,
                                  stderr=subprocess.DEVNULL, text=True)
    try:
        yield activating
    finally:
        activating.kill()
        activating.communicate()


@pytest.mark.skipif(not shutil.which("systemd-socket-activate"), reason="systemd-socket-activate is not installed")
def test_systemds_tool_starts_it_at_the_first_call_on_the_socket_that_it_hands_over_and_it_stops_as_the_unit_stops_it(prefix, sources, folder):
    healthd, control, port = f"{prefix}/bin/healthd", f"{folder}/control", free_port()
    script = f"{sources}/examples/rollout/services"
    with activated(healthd, "run", "--control", control, "--script", script, "--quiet", port=port) as activating:
        until(lambda: ran_other(healthd, "ask", "--port", str(port), "--timeout", "5"), (0, "SERVING\ngrpc-status 0\n", ""))
        assert ran_other(healthd, "tell", "--control", control, "stop") == (0, "stopping\n", "")
        assert activating.wait(20) == 0
        assert activating.stdout.readline() == f"listening 127.0.0.1:{port}\n"
