"""How `run` reads its script, why it ends before it serves, and how many loops it has."""
import fcntl
import os
import pty
import socket
import subprocess
import threading

import pytest

from support.command import ran, why_ended
from support.waiting import until

CATALOGUE = "catalogue -\n"
RULES = "a threshold has counts from 1 to 1000, and a service depends on services that stand further left in the catalogue"
# What is said of a script that sets nothing up. Comments and empty lines have numbers, a line may end in CR LF, and the first of two faults counts.
SCRIPTS = {
    "nothing": (b"", "no catalogue line"), "a byte that is no text": (b"\xff", "script not text"),
    "a catalogue without the empty name": (b"catalogue a\n", "catalogue: no empty name, expected - among the names"),
    "a line of a script to serve": (b"catalogue -\nmax 1\ngo\n", 'script line 3: "go": not in a script to run'),
    "a last line without its end": (b"catalogue db -\nfail", 'script line 2: "fail": expected fail NAME'),
    "a rule that there is not, after a comment": (
        b"catalogue db -\n# two\nregister db treshold 2\n",
        'script line 3: "register db treshold 2": no such rule, expected threshold, manual or depends'),
    "lines that end in CR LF": (b"# names\r\ncatalogue a -\r\n\r\nmax 9\r\npass a\r\n", "script line 5: missing"),
    "a journal that is full": (b"catalogue a -\nmax 1\nregister a manual\n\nregister - manual\n", "script line 5: refused full"),
    "a service that is not listed": (b"catalogue a -\nregister b manual\n", "script line 2: refused not listed"),
    "two lines that are wrong": (b"catalogue a -\nmax 9\nregister a manual\npass a\nretire -\n", "script line 4: wrong kind"),
    "a service that depends on one further right": (b"catalogue a b -\nregister a depends b\n", f"script line 2: refused bad rule: {RULES}"),
}
# A byte order mark is passed over, at the beginning and once.
MARK = b"\xef\xbb\xbf"
MARKED = {
    "before the catalogue": (MARK + b"catalogue a -\npass a\n", "script line 2: missing"), "alone": (MARK, "no catalogue line"),
    "twice": (MARK + MARK + b"catalogue a -\n", 'script line 1: "\ufeffcatalogue a -": expected catalogue and the names'),
    "in a script that is a byte too long by it": (MARK + b"#" * 65_534, "script too long"),
    "in the longest script": (MARK + b"#" * 65_533, "no catalogue line"), "cut": (MARK[:2], "script not text"),
}
FILES = [("/dev/null", "no catalogue line"), ("/dev/zero", "script too long"), ("/", "read /: is a directory"),
         ("/no/such/file", "read /no/such/file: not found")]
# What a pipe holds of which nobody has read anything.
HELD = 4_096


def ends_by(command, fault):
    """A run ends at once, before it prints anything. What it says last is why."""
    assert why_ended(command) == (1, "", f"healthd: {fault}\n")


def threads(server):
    return len(os.listdir(f"/proc/{server.process.pid}/task"))


@pytest.mark.parametrize("script, fault", SCRIPTS.values(), ids=SCRIPTS)
def test_a_run_ends_by_the_fault_of_its_script(program, script, fault):
    ends_by(ran(program, "run", given=script), fault)


@pytest.mark.parametrize("script, fault", MARKED.values(), ids=MARKED)
def test_a_byte_order_mark_is_passed_over_at_the_beginning_and_once(program, script, fault):
    ends_by(ran(program, "run", given=script), fault)


def test_a_run_says_where_standard_input_cannot_be_read(program):
    opened = os.open("/", os.O_RDONLY)
    try:
        ends_by(ran(program, "run", stdin=opened), "read standard input: is a directory")
    finally:
        os.close(opened)


@pytest.mark.parametrize("path, fault", FILES)
def test_a_run_ends_by_the_fault_of_its_file(program, path, fault):
    ends_by(ran(program, "run", "--script", path), fault)


def test_of_a_file_it_reads_a_byte_more_than_a_script_may_have(program, folder):
    with open(f"{folder}/long", "w+b") as file:
        file.write(b" " * 200_000)
        file.flush()
        file.seek(0)
        ends_by(ran(program, "run", stdin=file), "script too long")
        assert os.lseek(file.fileno(), 0, os.SEEK_CUR) == 65_537


def test_out_of_a_pipe_no_more_is_taken_but_for_what_waits_there(program, folder):
    poured = []

    def pour():
        with open(f"{folder}/pipe", "wb", buffering=0) as pipe:
            fcntl.fcntl(pipe, fcntl.F_SETPIPE_SZ, HELD)
            try:
                while True:
                    poured.append(pipe.write(b" " * 256))
            except BrokenPipeError:
                pass

    os.mkfifo(f"{folder}/pipe")
    pouring = threading.Thread(target=pour, daemon=True)
    pouring.start()
    ends_by(ran(program, "run", "--script", f"{folder}/pipe"), "script too long")
    pouring.join(20)
    assert not pouring.is_alive()
    assert 65_537 <= sum(poured) <= 65_537 + HELD + 256


def test_a_script_that_it_may_not_read_is_told(program, folder):
    secret = f"{folder}/secret"
    with open(secret, "wb") as file:
        file.write(b"\1\0")
    os.chmod(secret, 0)
    nobody = ("setpriv", "--reuid=nobody", "--clear-groups") if os.geteuid() == 0 else ()
    ends_by(ran(program, "run", "--script", secret, before=nobody), f"read {secret}: permission denied")


def test_an_address_that_this_machine_does_not_have_is_told(program):
    ends_by(ran(program, "run", "--listen", "192.0.2.1:8080", given=CATALOGUE), "bind 192.0.2.1:8080: address not available")


def test_a_run_that_is_told_no_address_listens_at_its_own_which_may_be_taken(program):
    with socket.socket() as taken:
        taken.setsockopt(socket.SOL_SOCKET, socket.SO_REUSEADDR, 1)
        try:
            taken.bind(("127.0.0.1", 8080))
            taken.listen()
        except OSError:
            pass  # somebody else has it
        ends_by(ran(program, "run", given=CATALOGUE), "bind 127.0.0.1:8080: address in use")


def test_a_control_place_that_another_run_has_is_told(program, server):
    ends_by(ran(program, "run", "--listen", "127.0.0.1:0", "--control", server.control, given=CATALOGUE), f"bind {server.control}: address in use")


def test_a_run_that_nobody_reads_ends(program):
    reader, writer = os.pipe()
    os.close(reader)
    try:
        ends_by(ran(program, "run", "--listen", "127.0.0.1:0", given=CATALOGUE, stdout=writer), "write: broken pipe")
    finally:
        os.close(writer)


def test_a_run_has_as_many_loops_as_threads_says(start):
    two, five = start("--threads", "2"), start("--threads", "5")
    until(lambda: threads(five) - threads(two), 3)


def test_a_run_without_threads_has_a_loop_for_each_processor_that_it_may_use(start):
    one_processor = ("taskset", "--cpu-list", str(min(os.sched_getaffinity(0))))
    two, default = start("--threads", "2"), start(before=one_processor)
    until(lambda: threads(two) - threads(default), 1)


def test_whoever_types_a_script_is_told_to_go_on(program):
    ours, its = pty.openpty()
    typing = subprocess.Popen([str(program), "run", "--listen", "127.0.0.1:0"], stdin=its, stdout=subprocess.PIPE, stderr=subprocess.PIPE, text=True)
    try:
        os.write(ours, b"catalogue a\n\x04")
        printed, said = typing.communicate(timeout=20)
    finally:
        typing.kill()
        typing.wait()
        os.close(ours)
        os.close(its)
    lines = said.splitlines()
    assert (typing.returncode, printed, lines[:1], lines[-1:]) == (
        1, "", ["healthd: reading a script from standard input, to its end (Ctrl-D)"],
        ["healthd: catalogue: no empty name, expected - among the names"])


def test_nobody_else_is_told_to_go_on(program):
    assert ran(program, "run", "--connections", "10", given="") == (1, "", "healthd: no catalogue line\n")
