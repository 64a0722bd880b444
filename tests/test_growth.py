"""Calls, changes and sessions leave nothing in a server: after 300,000 calls and as many changes it has as many files and as much memory."""
import contextlib
import multiprocessing
import os
import re
from pathlib import Path

import pytest

from support.session import numbers
from support.waiting import until
from support.wire import OK, all_of, call, connect, get, rest_of

FORK = multiprocessing.get_context("fork")
CLIENTS, CALLS, CHANGES = 3, 300_000, 300_000
# What a session asks for at a time, and one after the other.
LINES = ("down a", "up a", "fail b", "pass b") * 250
SCRIPT = "catalogue a b -\nregister a manual\nregister b threshold 1\nregister - manual\n"
# Before it is measured all is in use that the server keeps: room for twice the last 65,536 entries and changes, and once more in a loop with a Watch.
WARM_CALLS, WARM_CHANGES = 30_000, 150_000
# A word of eight bytes for each call, or for each change of the session that goes on, is more than four times as much.
MOST_KIB = 256


def ask(port, request, ends):
    with connect(port) as client:
        client.sendall(request)
        answer = all_of(client)
    assert answer.endswith(ends), answer


def watch(port):
    with connect(port) as client:
        client.sendall(call("Watch", "a"))
        assert client.recv(400).startswith(b"HTTP/1.1 200 ")


def call_all(port, plain, count):
    """Makes so many calls. Of twenty, sixteen are Checks; the others are a Watch, a plain request, one that is refused and one that is not made."""
    check = call("Check", "b")
    for _ in range(count // 20):
        for _ in range(16):
            ask(port, check, OK)
        watch(port)
        ask(plain, get("/status/-"), b"\r\n\r\nnot found\n")
        ask(port, get("/"), b"\r\n\r\n")
        connect(port).close()


def watch_on(port):
    """Reads what a Watch is told, and opens another where it has ended because it was too far behind."""
    while True:
        with connect(port, None) as client:
            client.sendall(call("Watch", "b"))
            rest_of(client)


@contextlib.contextmanager
def watched(server):
    watcher = FORK.Process(target=watch_on, args=(server.port,), daemon=True)
    watcher.start()
    try:
        yield
    finally:
        watcher.terminate()
        watcher.join()


def change_all(server, steady, count):
    """Makes so many changes, a thousand at a time: by turns over a session that goes on, and over one that expects reports and ends."""
    for number in range(count // len(LINES)):
        with contextlib.nullcontext(steady) if number % 2 else server.session(timeout=60) as session:
            assert session.ask("expect b 60") == "done"
            session.send("".join(f"{line}\n" for line in LINES))
            assert session.answers.read(5 * len(LINES)) == b"done\n" * len(LINES)


def call_and_change(server, steady, calls, changes):
    clients = [FORK.Process(target=call_all, args=(server.port, server.plain, calls // CLIENTS)) for _ in range(CLIENTS)]
    for client in clients:
        client.start()
    change_all(server, steady, changes)
    for client in clients:
        client.join()
    assert [client.exitcode for client in clients] == [0] * CLIENTS
    until(lambda: [numbers(steady.ask("stats"))[name] for name in ("connections", "watches", "sessions")], [1, 1, 1])


def files_and_memory(server):
    """How many files it has open, and its memory in KiB: that of /proc/PID/status is off by some hundreds."""
    mapped = Path(f"/proc/{server.process.pid}/smaps_rollup").read_text(encoding="utf-8")
    return len(os.listdir(f"/proc/{server.process.pid}/fd")), int(re.search(r"^Rss:\s*(\d+) kB$", mapped, re.MULTILINE)[1])


@pytest.mark.timeout(600)
def test_neither_memory_nor_files_grow_with_calls_changes_and_sessions(start, program):
    if b"__asan_init" in Path(str(program)).read_bytes():
        pytest.skip("its memory is checked, so that it keeps what was freed for a while")
    server = start("--threads", "1", "--plain", "127.0.0.1:0", "--quiet", script=SCRIPT)
    with watched(server), server.session(timeout=60) as steady:
        call_and_change(server, steady, WARM_CALLS, WARM_CHANGES)
        files, before = files_and_memory(server)
        call_and_change(server, steady, CALLS, CHANGES)
        found = files_and_memory(server)
    assert found[0] == files
    assert found[1] - before <= MOST_KIB, f"{found[1]} KiB after {before} KiB"
