#!/usr/bin/env python3
"""Times a run whose history is in a file, beside the two syncs that a change takes and beside a run without a file.

  HEALTHD=PROGRAM bench/measure_journal.py FOLDER [ROUNDS]

FOLDER is on the disk that is measured. With strace installed, syncs of 10 ms are measured too. No check: it prints figures."""
import os
import select
import shutil
import sys
import threading
import time
from contextlib import ExitStack

from common import HEALTHD
from support.lasting import lasting
from support.wire import MESSAGE, call, connect

CHECK, WATCH = call("Check", "a"), call("Watch", "a")
CHANGES, CHECKS, OPENED, WATCHES = 1000, 3000, 200, 20


def told(times):
    times = sorted(times)
    return f"median {times[len(times) // 2] * 1e6:.0f} us, 99th percentile {times[len(times) * 99 // 100] * 1e6:.0f} us"


def each(count, act):
    times = []
    for number in range(count):
        begins = time.perf_counter()
        act(number)
        times.append(time.perf_counter() - begins)
    return times


def two_syncs(folder):
    """As a change does: a record behind the gate and a sync, the gate and a sync."""
    file = os.open(f"{folder}/syncs", os.O_RDWR | os.O_CREAT | os.O_TRUNC)

    def act(number):
        os.pwrite(file, b"x" * 28, number * 28 + 1)
        os.fdatasync(file)
        os.pwrite(file, b"\1", number * 28)
        os.fdatasync(file)

    times = each(CHANGES, act)
    os.close(file)
    return times


def run(journal, delay=0):
    """A run with this journal, or without one, whose syncs take so many microseconds more."""
    slow = ("strace", "-f", "-o", "/dev/null", "--seccomp-bpf", "-e", "trace=fdatasync", "-e", f"inject=fdatasync:delay_enter={delay}")
    return lasting(HEALTHD, "--quiet", *(("--journal", journal) if journal else ()), script="catalogue a -\nregister a manual\n",
                   before=slow if delay else ())


def changes(journal):
    with run(journal) as server, server.session() as session:
        return each(CHANGES, lambda number: change(session, number))


def change(session, number):
    session.send(b"down a\n" if number % 2 else b"up a\n")
    session.answers.readline()


def check(port):
    with connect(port) as client:
        client.sendall(CHECK)
        while client.recv(4096):
            pass


def open_watch(port):
    """Opens a Watch, until it is told its first status."""
    with connect(port) as client:
        client.sendall(WATCH)
        read = b""
        while MESSAGE not in read:
            read += client.recv(4096)


def checks_beside(journal, delay):
    """Checks while a session changes without a pause but half a millisecond, and Watches are told."""
    ended, made = threading.Event(), []
    with ExitStack() as stack:
        server = stack.enter_context(run(journal, delay))
        session = stack.enter_context(server.session())
        watches = [stack.enter_context(connect(server.port)) for _ in range(WATCHES)]
        for watch in watches:
            watch.sendall(WATCH)

        def pour():
            while not ended.wait(0.0005):
                made.extend(each(1, lambda _: change(session, len(made))))

        def drain():
            while not ended.is_set():
                for watch in select.select(watches, [], [], 0.1)[0]:
                    watch.recv(65536)

        threads = [threading.Thread(target=pour), threading.Thread(target=drain)]
        for thread in threads:
            thread.start()
        times, opened = each(CHECKS, lambda _: check(server.port)), each(OPENED, lambda _: open_watch(server.port))
        ended.set()
        for thread in threads:
            thread.join()
    return times, opened, made


folder = sys.argv[1]
journal = f"{folder}/journal"
for _ in range(int(sys.argv[2]) if len(sys.argv) > 2 else 3):
    for name, act in [("two syncs", lambda: two_syncs(folder)), ("a change with a journal", lambda: changes(journal)),
                      ("a change without", lambda: changes(None))]:
        if os.path.exists(journal):
            os.remove(journal)
        print(f"{name}: {told(act())}", flush=True)
    for name, path, delay in [("no journal", None, 0), ("a journal", journal, 0), ("a journal whose syncs take 10 ms", journal, 10000)]:
        if delay and not shutil.which("strace"):
            continue
        if os.path.exists(journal):
            os.remove(journal)
        times, opened, made = checks_beside(path, delay)
        print(f"beside {WATCHES} Watches and {len(made)} changes, {name}: a Check {told(times)}; an opened Watch {told(opened)}", flush=True)
os.remove(f"{folder}/syncs")
os.remove(journal)
