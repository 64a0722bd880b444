"""A real systemd starts, restarts and stops the units, in a system of its own over the files of this one (systemd-nspawn)."""
import contextlib
import ctypes
import fcntl
import os
import re
import shutil
import subprocess
import time

import pytest

from support.command import ran_other
from support.session import numbers
from support.waiting import until
from support.watch import Watch
from support.wire import OK, all_of, call, connect, rest_of

NSPAWN = shutil.which("systemd-nspawn")
pytestmark = [
    pytest.mark.root, pytest.mark.timed, pytest.mark.timeout(300),  # a system has to start before each test
    pytest.mark.skipif(not NSPAWN or not os.path.exists("/lib/systemd/systemd"), reason="systemd-nspawn or systemd is not installed")]

# Where the system of its own has the program.
PREFIX = "/opt/healthd-test"
UNITS = ("healthd.service", "healthd.socket", "healthd@.service", "healthd@.socket")
SCRIPT = "catalogue a -\nregister a manual\nregister - depends a\n"
WATCHES, CHECK = 300, call("Check", "a")


@contextlib.contextmanager
def network_of(process):
    """What this thread connects meanwhile is in the network of this process."""
    def enter(network):
        assert ctypes.CDLL(None).setns(network.fileno(), 0) == 0
    with open("/proc/thread-self/ns/net", encoding="utf-8") as ours, open(f"/proc/{process}/ns/net", encoding="utf-8") as its:
        enter(its)
        try:
            yield
        finally:
            enter(ours)


class System:
    """Its first process is a systemd, and its network has nothing but the loopback device."""

    def __init__(self, folder, files):
        binds = [f"--bind-ro={source}:{to}" for to, source in files.items()]
        os.mkdir(f"{folder}/root")
        self.console = f"{folder}/console"
        with open(self.console, "w", encoding="utf-8") as console:
            self.process = subprocess.Popen(
                ["unshare", "-m", "/bin/bash", "-c", f'mount --bind / {folder}/root && exec "$@"', "sh", NSPAWN, "--quiet", "--register=no",
                 "--keep-unit", "-D", f"{folder}/root", "--volatile=overlay", "--private-network", *binds, f"--machine=healthd-{os.getpid()}",
                 "--boot", "systemd.unit=basic.target"], stdin=subprocess.DEVNULL, stdout=console, stderr=subprocess.STDOUT)

    @property
    def first(self):
        """The number of its first process, or nothing before there is one."""
        with open(f"/proc/{self.process.pid}/task/{self.process.pid}/children", encoding="utf-8") as file:
            return file.read().strip()

    def has_started(self):
        if self.process.poll() is not None:
            with open(self.console, encoding="utf-8", errors="replace") as file:
                pytest.skip(f"no system of its own can be started here: {file.read().strip()[-200:]}")
        return self.first and self.run("systemctl", "is-active", "basic.target").printed == "active\n"

    def entered(self, *words):
        return "nsenter", "-t", self.first, "-a", *words

    def run(self, *words):
        return ran_other(*self.entered(*words))

    def does(self, *words):
        done = self.run("systemctl", *words)
        assert done.status == 0, self.run("journalctl", "-u", words[-1], "-n", "20", "-o", "cat").printed or done.said

    def shown(self, unit, *names):
        return [self.run("systemctl", "show", "--value", "-p", name, unit).printed.strip() for name in names]

    def tell(self, *words):
        return self.run(f"{PREFIX}/bin/healthd", "tell", "--control", "/run/healthd/control", *words).printed.strip()

    def connect(self, port=8080):
        with network_of(self.first):
            return connect(port, 60)

    def check(self, port=8080):
        with self.connect(port) as client:
            client.sendall(CHECK)
            return all_of(client)

    def close(self):
        try:
            if self.process.poll() is None and self.first:
                self.run("systemctl", "poweroff", "--force", "--force")
            self.process.wait(60)
        finally:
            self.process.kill()


@pytest.fixture
def system(program, sources, folder):
    """One with the units, and with a few services for them."""
    files = {f"{PREFIX}/bin/healthd": program.path}
    for unit in UNITS:
        text = (sources / "packaging/systemd" / unit).read_text(encoding="utf-8")
        files[f"/etc/systemd/system/{unit}"] = written(f"{folder}/{unit}", text.replace("@PREFIX@", PREFIX))
    for path in ("/etc/healthd/services", "/etc/healthd/8090/services"):
        files[path] = written(f"{folder}/services", SCRIPT)
    with open(NSPAWN, "rb") as one_at_a_time:
        # All of them would have the same control group.
        fcntl.flock(one_at_a_time, fcntl.LOCK_EX)
        with contextlib.closing(System(folder, files)) as system:
            until(system.has_started, True, 100)
            yield system


def written(path, text):
    with open(path, "w", encoding="utf-8") as file:
        file.write(text)
    return path


@pytest.fixture
def started(system):
    system.does("start", "healthd.socket", "healthd.service")
    return system


@pytest.fixture
def opened(started):
    """Opens many Watches, each of which was told the same status, and sends a half of a Check. Then it has systemd do this to the service."""
    with contextlib.ExitStack() as closing:
        def open_all_and(verb):
            watches = [closing.enter_context(contextlib.closing(Watch(started.connect()))) for _ in range(WATCHES)]
            assert len({watch.next() for watch in watches}) == 1
            # It comes last: its time is ten seconds, however long it takes to open the others.
            begins, half = time.monotonic(), closing.enter_context(started.connect())
            half.sendall(CHECK[:40])
            until(lambda: numbers(started.tell("stats"))["connections"], WATCHES + 1, 20)
            with subprocess.Popen(started.entered("systemctl", verb, "healthd"), stderr=subprocess.PIPE, text=True) as doing:
                assert [watch.rest() for watch in watches] == [[]] * WATCHES
                half.sendall(CHECK[40:])
                sent = time.monotonic() - begins
                assert rest_of(half).endswith(OK) or sent > 9.8, f"it was sent after {sent} s"
                assert doing.wait(60) == 0, doing.stderr.read()
        yield open_all_and


def test_a_check_is_answered_at_the_socket_of_a_unit_that_has_blocked_the_signals_which_stop_it(started):
    [main] = started.shown("healthd", "MainPID")
    assert re.search(r"(?m)^SigBlk:\t0{12}4002$", started.run("cat", f"/proc/{main}/status").printed)
    assert started.check().endswith(OK)


def test_a_restart_ends_each_watch_with_trailers_and_answers_a_half_sent_check_and_another_process_goes_on_from_the_history(started, opened):
    [first] = started.shown("healthd", "MainPID")
    assert started.tell("down", "a") == "done"
    opened("restart")
    assert started.shown("healthd", "MainPID")[0] not in (first, "0")
    assert started.tell("check", "a") == "not serving"


def test_a_stop_ends_each_watch_with_trailers_and_answers_a_half_sent_check_and_is_a_success_after_which_it_starts_again(started, opened):
    opened("stop")
    assert started.shown("healthd", "ActiveState", "Result", "ExecMainStatus", "NRestarts") == ["inactive", "success", "0", "0"]
    started.does("start", "healthd")


def test_a_stop_without_clients_is_over_in_time(started, within):
    # A server that waits for a client has ten seconds, and systemd one that does not end by itself twenty. The rest is systemd's own.
    with within(5):
        started.does("stop", "healthd")


def test_a_unit_that_is_named_by_its_port_answers_a_check_and_is_stopped_too(system):
    system.does("start", "healthd@8090.socket", "healthd@8090.service")
    assert system.check(8090).endswith(OK)
    system.does("stop", "healthd@8090.service")
    assert system.shown("healthd@8090", "Result") == ["success"]
