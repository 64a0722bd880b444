"""Services that are expected to be heard, over real time."""
import contextlib
import json
import os
import select
import signal
import subprocess
import threading
import time

import pytest

from support.lasting import lasting
from support.log import seconds_of
from support.process import processor_seconds
from support.waiting import PATIENCE, until
from support.wire import NOT_SERVING, SERVICE_UNKNOWN, SERVING

pytestmark = pytest.mark.timed

SCRIPT = "catalogue a db -\nregister a threshold 3\nregister db manual\nregister - depends a\n"
LATE = 0.2  # a tenth of a second, and one for the scheduling of this machine
ONCE = 1  # as late as one of them may be on a machine that has other work


@pytest.fixture
def report(folder):
    return f"{folder}/report"


@pytest.fixture
def server(start, report):
    return start("--report", report, script=SCRIPT)


@pytest.fixture
def session(server):
    with server.session() as session:
        yield session


@pytest.fixture
def watch(server):
    """A Watch of `a`, which has been told that it serves."""
    with contextlib.closing(server.watch()) as watch:
        assert watch.next() == SERVING
        yield watch


def told_of_a(server):
    """What `status` tells of `a`."""
    return json.loads(server.program.run("status", "--control", server.control, "--json").stdout)[0]


def expected(server):
    """How often `a` is expected to be heard."""
    return told_of_a(server)["expected_seconds"]


def expires(watch, within, begins, period=1):
    """The watcher is told in time from now on, and no sooner than a period after a moment before that began: this process may have had to wait
    meanwhile. By how much more than its time it was told."""
    waits = time.monotonic()
    with within(period + ONCE):
        assert watch.next() == NOT_SERVING
    ends = time.monotonic()
    assert ends - begins >= period
    return ends - waits - period


# What a line is answered, and what a script may say.

ANSWERS = [
    ("expect a 60", "done"), ("expect a 0", "done"), ("expect db 5", "wrong kind"), ("expect - 5", "wrong kind"),
    ("expect nobody 5", "refused not listed"), ("expect a 86400", "done"), ("expect a 86401", "bad line"),
    ("expect a", "bad line"), ("expect a 0", "done"), ("expect a 05", "done"), ("expect a 0000086400", "done"),
    ("expect a 00000000005", "bad line"), ("expect a 4294967295", "bad line"), ("expect a 4294967296", "bad line"),
    ("expect a -1", "bad line"), ("expect a +1", "bad line"), ("expect a 1.5", "bad line"), ("expect a five", "bad line"),
    ("expect a -", "bad line"), ("expect", "bad line"), ("expect a 5 6", "bad line"), ("expect  a 5", "bad line"),
    ("expect a 5 ", "bad line"), (" expect a 5", "bad line"), ("Expect a 5", "bad line"), ("expect -- 7", "refused not listed"),
    ("expect 5 5", "refused not listed"), ("expect expect 5", "refused not listed"), ("expect ü 60", "refused not listed"),
    ("expect a 0", "done"),
]


@pytest.fixture(scope="module")
def answering(program):
    """A session whose answers do not depend on the lines before."""
    with lasting(program, script=SCRIPT) as server, server.session() as session:
        yield session


@pytest.mark.parametrize("line, answer", dict(ANSWERS).items(), ids=lambda text: text.replace(" ", "_"))
def test_a_line_that_sets_an_expectation_is_answered(answering, line, answer):
    assert answering.ask(line) == answer


def test_an_expectation_is_no_entry_and_where_it_has_ended_it_is_told_that_nothing_is_expected(server, session):
    assert [(line, session.ask(line)) for line, _ in ANSWERS] == ANSWERS
    assert server.stats()["entries"] == 3
    assert expected(server) is None


def test_it_is_told_what_is_expected_last(server, session):
    assert [session.ask(f"expect a {seconds}") for seconds in (70, 60)] == ["done"] * 2
    assert expected(server) == 60
    time.sleep(0.3)  # some rounds later nothing else is expected
    assert expected(server) == 60
    session.ask("expect a 0")
    assert expected(server) is None


def test_who_reports_may_not_expect(server, report):
    assert server.tell("expect", "a", "5", place=report) == ("not allowed", 3)


def test_what_a_script_expects_is_told(start):
    assert expected(start("--quiet", script=SCRIPT + "expect a 3600\n")) == 3_600


@pytest.mark.parametrize("lines, complaint", [
    ("expect db 5\n", "script line 5: wrong kind"), ("retire a\nexpect a 5\n", "script line 6: missing"),
    ("expect zz 5\n", "script line 5: refused not listed"), ("fail zz\nexpect zz 5\n", "script line 5: refused not listed"),
    ("expect db 5\nfail zz\n", "script line 5: wrong kind"),
], ids=["wrong kind", "missing", "not listed", "not listed, after another fault", "wrong kind, before another fault"])
def test_a_script_with_an_expectation_that_cannot_be_is_refused(start, lines, complaint):
    server = start(script=SCRIPT + lines, starts=False)
    assert server.end()[0] != 0
    assert server.said().strip() == f"healthd: {complaint}"


# An expectation, and the watcher that is told.

def test_a_service_of_which_nothing_is_heard_fails_as_often_as_it_takes(server, session, watch, within):
    begins = time.monotonic()
    session.ask("expect a 1")
    expires(watch, within, begins)
    assert session.ask("check a") == "not serving"
    assert session.ask("list") == "a=not_serving db=serving -=not_serving"  # so it is with those that depend on it
    stats = server.stats()
    assert (stats["entries"], stats["expired"]) == (6, 1)  # after the three of the script, three fails


def test_a_service_of_which_nothing_is_heard_expires_once(server, session, watch):
    session.ask("expect a 1")
    assert watch.next() == NOT_SERVING
    time.sleep(1.5)  # it does not expire again
    stats = server.stats()
    assert (stats["entries"], stats["expired"]) == (6, 1)


def test_a_service_is_back_and_stays_up_while_it_is_reported_and_expires_when_its_reporter_is_killed(server, session, watch, report, within):
    session.ask("expect a 1")
    assert watch.next() == NOT_SERVING
    # The reporter has some time for each report, because it starts a program for that.
    session.ask("expect a 3")
    reports = f'while sleep 0.2; do echo pass a; done | "{server.program}" tell --control "{report}"'
    reporter = subprocess.Popen(["/bin/sh", "-c", reports], stdout=subprocess.DEVNULL, stderr=subprocess.DEVNULL, start_new_session=True)
    try:
        assert watch.next() == SERVING
        assert select.select([watch.client], [], [], 4.5)[0] == []  # the watcher is told nothing
        assert session.ask("check a") == "serving"
    finally:
        os.killpg(reporter.pid, signal.SIGKILL)
        reporter.wait()
    with within(3 + ONCE):
        assert watch.next() == NOT_SERVING
    wall = time.time()
    reported = seconds_of(told_of_a(server)["reported"]["time"])
    # The clock of the wall may be set meanwhile, by a little.
    assert wall - reported >= 3 - 0.01


def test_most_are_told_in_time(session, watch, within):
    late = []
    for _ in range(5):
        begins = time.monotonic()
        session.ask("expect a 1")
        late.append(expires(watch, within, begins))
        assert [session.ask(line) for line in ("expect a 0", "pass a")] == ["done"] * 2
        assert watch.next() == SERVING
    assert sorted(late)[2] <= LATE, late


# Set, changed, ended and set again while it runs.

ROUNDS = 0.15  # as long as it takes until it has looked at what is expected


def test_a_new_time_counts(session):
    session.ask("expect a 3")
    time.sleep(ROUNDS)
    session.ask("expect a 6")
    time.sleep(3.5)  # nothing expires by the old time
    assert session.ask("check a") == "serving"


def test_an_expectation_that_was_ended_does_not_expire(session):
    session.ask("expect a 3")
    time.sleep(ROUNDS)
    session.ask("expect a 0")
    time.sleep(3.5)  # nothing expires
    assert session.ask("check a") == "serving"


def test_an_expectation_that_was_set_again_begins_then(session, watch, within):
    for seconds in (6, 0):
        session.ask(f"expect a {seconds}")
    begins = time.monotonic()
    session.ask("expect a 1")
    expires(watch, within, begins)


def test_the_later_of_two_expectations_in_one_piece_counts(session, watch, within):
    begins = time.monotonic()
    assert session.ask("expect a 60\nexpect a 1\n".encode()) == "done" and session.answer() == "done"
    expires(watch, within, begins)


def test_a_pass_brings_a_service_back_and_its_expectation_begins_anew(session, watch, within):
    session.ask("expect a 1")
    assert watch.next() == NOT_SERVING
    begins = time.monotonic()
    assert session.ask("pass a") == "done"
    assert watch.next() == SERVING
    expires(watch, within, begins)


def test_nothing_expires_while_the_server_is_shut_down_and_a_resume_begins_anew(server, session, watch, within):
    assert session.ask("expect a 1\nshutdown\n".encode()) == "done" and session.answer() == "done"
    assert watch.next() == NOT_SERVING
    before = server.stats()
    time.sleep(1.3)  # nothing expires
    assert server.stats()["entries"] == before["entries"]
    begins = time.monotonic()
    session.ask("resume")
    assert watch.next() == SERVING
    expires(watch, within, begins)


def test_a_retirement_ends_an_expectation_and_the_service_is_back_where_it_is_registered_anew(server, session, watch):
    session.ask("expect a 1")
    assert watch.next() == NOT_SERVING
    assert [session.ask(line) for line in ("retire a", "register a threshold 3")] == ["done"] * 2
    while (told := watch.next()) != SERVING:
        assert told == SERVICE_UNKNOWN
    time.sleep(1.3)  # nothing expires
    assert (session.ask("check a"), expected(server)) == ("serving", None)


def test_stop_ends_a_server_that_expects_something_beside_a_watch(server, session, watch, within):
    session.ask("expect a 60")
    with within(3):
        server.stop()


def test_a_script_s_expectation_begins_when_the_server_serves(start, within):
    begins = time.monotonic()
    server = start("--quiet", script=SCRIPT + "expect a 3\n")
    with contextlib.closing(server.watch()) as watch:
        assert watch.next() == SERVING
        expires(watch, within, begins, 3)


# Fifteen of them beside a session that pours.

@contextlib.contextmanager
def pouring(server):
    ends = threading.Event()

    def pour():
        with server.session() as client:
            while not ends.is_set():
                client.ask_many("down m\nup m", 50)
                for _ in range(50):
                    client.answer()

    thread = threading.Thread(target=pour, daemon=True)
    thread.start()
    try:
        until(lambda: server.stats()["entries"] > 200, True)
        yield
    finally:
        ends.set()
        thread.join()


def expire_all(session, names, pauses):
    """The seconds until all of them are down that are expected now, but for a pause of the machine; and how long after its own line each was
    seen so first."""
    begun, down = {}, {}
    for name in names:
        session.ask(f"expect {name} 0")
        session.ask(f"pass {name}")
        begun[name] = time.monotonic()
        assert session.ask(f"expect {name} 1") == "done"
    begins = time.monotonic()
    while len(down) < len(begun) and time.monotonic() - begins < PATIENCE:
        listed = session.ask("list").split(" ")
        now = time.monotonic()
        down |= {name: now - begun[name] for name in begun.keys() - down.keys() if f"{name}=not_serving" in listed}
        time.sleep(0.005)
    return time.monotonic() - begins - pauses.since(begins), down


def test_fifteen_services_expire_in_time_and_once_each_beside_a_session_that_pours(start, pauses):
    names = [*(f"s{number}" for number in range(14)), "-"]
    server = start(script=f"catalogue {' '.join(names[:-1])} m -\n" + "".join(f"register {name} threshold 5\n" for name in names)
                   + "register m manual\n")
    # The best of three tries counts: this machine may have other work in one of them.
    tries = []
    with server.session() as session, pouring(server):
        while len(tries) < 3 and not any(seconds <= 1 + 2 * LATE for seconds in tries):
            seconds, down = expire_all(session, names, pauses)
            assert len(down) == 15 and min(down.values()) >= 1, down
            tries.append(seconds)
    print(f"fifteen services expired in {min(tries):.3f} s")
    assert min(tries) <= 1 + 2 * LATE, tries
    assert server.stats()["expired"] == 15 * len(tries)


# It waits between its rounds.

def test_a_server_that_waits_for_a_report_takes_next_to_no_time_of_the_processor(start):
    server = start("--quiet", script=SCRIPT + "expect a 3600\n")
    before = processor_seconds(server.process)
    time.sleep(2)  # nothing is done
    assert processor_seconds(server.process) - before < 0.1
