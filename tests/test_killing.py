"""`run --journal`, killed at any moment: what it has told is in its file, and the next run goes on from there. `--kills` says how often."""
import contextlib
import os
import random
import time
from collections import Counter
from concurrent.futures import ThreadPoolExecutor

import pytest

from support import judge
from support.beside import NAMES, SETUP, Load
from support.judge import Change, Client, History
from support.server import Server

SCRIPT = "\n".join([f"catalogue {' '.join(NAMES)}", *SETUP, ""])


class Killing:
    """Runs over one file, each with its places where those of the killed ones before it are left. What they tell is held against the file."""

    def __init__(self, program, folder, journal):
        self.program, self.folder, self.journal = program, folder, journal
        self.control, self.report = f"{folder}/control", f"{folder}/report"
        self.history, self.counts, self.starts = History(NAMES), Counter(), []

    @contextlib.contextmanager
    def run(self, **how):
        """A run, which is killed in the end."""
        options = ("--quiet", "--report", self.report, "--journal", self.journal)
        with contextlib.closing(Server(self.program, self.folder, *options, script=SCRIPT, control=self.control, **how)) as server:
            try:
                yield server
            finally:
                server.kill()

    def printed(self):
        """The history that the file has."""
        if not os.path.exists(self.journal) or not os.path.getsize(self.journal):
            return ""
        ran = self.program.run("journal", self.journal, timeout=60)
        assert (ran.returncode, ran.stderr) == (0, "")
        return ran.stdout

    def kill_early(self):
        """Kills a run while it starts: it tells nothing."""
        with self.run(starts=False):
            time.sleep(random.uniform(0, 1.2 * (self.starts[-1] if self.starts else 0.05)))
        self.compare(Client("nobody"), [])

    def kill(self):
        """Kills a run beside its clients. Before that the file is printed while it is written."""
        begins, delay = time.monotonic(), random.uniform(0.05, 0.5)
        with self.run() as server, ThreadPoolExecutor() as threads:
            self.starts.append(time.monotonic() - begins)
            assert (server.control, server.report) == (self.control, self.report)
            load = Load(server)
            load.look()
            printing, _ = threads.submit(later, delay / 2, self.printed), threads.submit(later, delay, server.process.kill)
            load.run()
        self.compare(load.looker, load.clients)
        judge.claim(judge.PRINTED, self.history.text.startswith(printing.result()), f"it was {printing.result()}")
        self.count(load.clients)

    def compare(self, looker, clients):
        """Holds what was told in a run against what its file has now."""
        start = len(self.history)
        self.history.extend(self.printed())
        if not start and len(self.history):
            start = len(SETUP)
            found = self.history.entries[:start]
            judge.claim(judge.ASKED, found == [(line, "done") for line in SETUP], f"it begins with {found}")
        judge.judge(self.history, start, looker, clients)

    def count(self, clients):
        for client in clients:
            for told in client.told:
                if isinstance(told, Change):
                    self.counts[fate(told)] += 1
                elif told.word == "watch":
                    self.counts["statuses told by Watches"] += len(told.what[1])
                else:
                    self.counts["Checks" if client.name == "Checks" else "sessions' questions"] += 1


def fate(change):
    if change.reply is None:
        return "changes not made" if change.place is None else "changes made and not answered"
    return "changes answered" if change.is_entry() else "changes refused"


def later(seconds, act):
    time.sleep(seconds)  # so that it comes at any moment
    return act()


@pytest.mark.timeout(600)
def test_a_run_after_a_kill_has_all_that_was_answered_or_told_before_and_nothing_else(pytestconfig, program, folder, tmp_path, record_property):
    killing = Killing(program, folder, str(tmp_path / "journal"))
    for number in range(pytestconfig.getoption("--kills")):
        try:
            if number % 4 == 0:
                killing.kill_early()
            killing.kill()
        except Exception as wrong:
            raise AssertionError(f"after kill {number + 1}: {wrong}; its file is {killing.journal}") from wrong
    for name, count in [*killing.counts.items(), ("entries", len(killing.history)), ("the longest start", f"{max(killing.starts):.3f} s")]:
        record_property(name, count)
