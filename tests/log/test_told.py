"""The lines of a log: of changes, of services that are not heard from, of bounds that are met, and of lines that were left out."""
import contextlib
import re
import time

from support.log import ENDED, Log, each
from support.session import numbers
from support.waiting import until

SESSIONS = 16
TRIES = 10
# So many lines are written in a second.
MOST = 100


# Changes.

def test_a_change_has_a_line_for_each_status_that_it_changes_and_a_refused_one_has_its_reason_and_others_have_none(server):
    log = Log(server)
    log.after("down a", *each("a -", "WARN  {}: serving -> not_serving, entry 3 (session 1: down a)"))
    log.after("pass db")
    log.after("register a depends a", "WARN  a change of session 3 was refused: bad rule", answer="refused bad rule")
    log.after("up a", *each("a -", "INFO  {}: not_serving -> serving, entry 5 (session 4: up a)"))
    log.ends()


def test_what_came_about_last_is_told_before_the_end(server):
    log = Log(server)
    with server.session() as session:
        assert [session.ask(line) for line in ("down a", "up nobody")] == ["done", "refused not listed"]
    server.stop()
    first, *last, end = server.log()
    # Refusals are looked at after changes, so that a change which comes in between is told after one that was refused later.
    assert sorted(last) == sorted([*each("a -", "WARN  {}: serving -> not_serving, entry 3 (session 1: down a)"),
                                   "WARN  a change of session 1 was refused: not listed"])
    assert ([first], end) == (log.lines, ENDED)


def test_a_quiet_run_has_no_log(start):
    server = start("--quiet")
    assert server.tell("down", "a") == ("done", 0)
    server.stop()
    assert server.written() == []


def test_services_that_change_by_one_entry_have_a_line_each_and_one_that_goes_and_comes_is_absent_meanwhile(server):
    log = Log(server)
    log.after("shutdown", *each("a db -", "WARN  {}: serving -> not_serving, entry 3 (session 1: shutdown)"))
    log.after("resume", *each("a db -", "INFO  {}: not_serving -> serving, entry 4 (session 2: resume)"))
    log.after("retire a", "WARN  a: serving -> absent, entry 5 (session 3: retire a)",
              "WARN  -: serving -> not_serving, entry 5 (session 3: retire a)")
    log.after("register a threshold 1", "INFO  a: absent -> serving, entry 6 (session 4: register a threshold 1 1)",
              "INFO  -: not_serving -> serving, entry 6 (session 4: register a threshold 1 1)")
    log.after("fail db")
    log.after("fail db", *each("db -", "WARN  {}: serving -> not_serving, entry 8 (session 6: fail db)"))
    log.ends()


def test_a_server_that_has_a_report_place_alone_has_a_log_of_what_reports_change(start, folder):
    server = start("--report", f"{folder}/report", control=False)
    log = Log(server)
    assert [server.tell("fail", "db", place=server.report) for _ in range(2)] == [("done", 0)] * 2
    log.has(*each("db -", "WARN  {}: serving -> not_serving, entry 4 (session 2: fail db)"))
    server.kill()


def test_names_are_written_in_their_letters_and_control_characters_by_their_numbers(start):
    log = Log(start(script="catalogue größe a\t\x1b[31mb\x9b -\nregister - manual\n"), "3 services, 1 entry")
    log.after("register größe manual", "INFO  größe: absent -> serving, entry 1 (session 1: register größe manual)")
    log.after("register a\t\x1b[31mb\x9b manual",
              r"INFO  a\u{9}\u{1b}[31mb\u{9b}: absent -> serving, entry 2 (session 2: register a\u{9}\u{1b}[31mb\u{9b} manual)")
    log.ends()


# Services that are not heard from.

def test_a_service_that_is_not_heard_from_has_a_line_of_its_own_unless_it_is_down_already(start):
    server = start(script="catalogue db api -\nregister db threshold 2\nregister api threshold 1\nregister - manual\n")
    log = Log(server)
    log.after("fail api", "WARN  api: serving -> not_serving, entry 3 (session 1: fail api)")
    assert server.tell("expect", "db", "1") == ("done", 0)
    log.after("expect api 1", "WARN  db: not heard from for 1 s, 2 fails made, entry 5",
              "WARN  db: serving -> not_serving, entry 5 (expiry: fail db)")
    # It is heard once more.
    log.after("pass db", "INFO  db: not_serving -> serving, entry 6 (session 4: pass db)", "WARN  db: not heard from for 1 s, 2 fails made, entry 8",
              "WARN  db: serving -> not_serving, entry 8 (expiry: fail db)")
    log.ends()


def test_one_of_a_thing_is_told_as_one_and_the_whole_server_and_an_unknown_status_have_their_names(start):
    log = Log(start(script="catalogue -\nregister - threshold 1 1 unknown\n"), "1 service, 1 entry")
    log.after("pass -", "INFO  -: unknown -> serving, entry 1 (session 1: pass -)")
    log.after("expect - 1", "WARN  -: not heard from for 1 s, 1 fail made, entry 2", "WARN  -: serving -> not_serving, entry 2 (expiry: fail -)")
    log.after("resume", "INFO  -: not_serving -> unknown, entry 3 (session 3: resume)")
    log.ends()


# Bounds.

def test_each_bound_that_is_met_has_one_line(start, connected, watching):
    server = start("--connections", "3", "--watches", "2")
    log = Log(server)
    with server.session() as session:
        watching(server, 1)
        until(lambda: numbers(session.ask("stats"))["watches"], 1)
        # It has looked at that by the time that it tells of a change: nothing is told of one Watch.
        assert session.ask("down a") == "done"
        log.has(*each("a -", "WARN  {}: serving -> not_serving, entry 3 (session 1: down a)"))
        watching(server, 1)
        log.has("WARN  all 2 watches are taken")
        connected(server, 1)
        log.has("WARN  all 3 connections are taken")
        with contextlib.ExitStack() as opened:
            for _ in range(SESSIONS - 1):
                opened.enter_context(server.session())
            log.has(f"WARN  all {SESSIONS} sessions are taken")
        assert session.ask("up a") == "done"
        log.has(*each("a -", "INFO  {}: not_serving -> serving, entry 4 (session 1: up a)"))
    log.ends()


def test_a_history_that_is_nearly_full_has_one_line_and_so_has_one_that_is_full(start):
    server = start(script="catalogue a -\nmax 20\nregister a manual\nregister - manual\n")
    log = Log(server, "2 services, 2 entries")
    with server.session() as session:
        assert session.ask_many("up a", 15) == ["done"] * 15
    log.after("up a", "WARN  nine tenths of 20 entries are made")
    log.after("up a")
    log.after("up a", "WARN  all 20 entries are made")
    log.ends()


# More lines than are written.

TEN = "a b c d e f g h i -"
TEN_LINES = [line for entry in range(10, 20, 2) for line in (
    *each(TEN, f"WARN  {{}}: serving -> not_serving, entry {entry} (session 1: shutdown)"),
    *each(TEN, f"INFO  {{}}: not_serving -> serving, entry {entry + 1} (session 1: resume)"))]


def test_a_hundred_lines_are_written_in_a_second_and_how_many_were_left_out_is_told_after_it(start):
    for _ in range(TRIES):
        server = start(script=f"catalogue {TEN}\n" + "".join(each(TEN, "register {} manual\n")))
        log = Log(server, "10 services, 10 entries")
        time.sleep(1.1)  # the second is over that has its first line
        begins = time.monotonic()
        with server.session() as session:
            session.send("shutdown\nresume\n" * 5 + "down a\n")
            assert [session.answer() for _ in range(11)] == ["done"] * 11
        until(lambda: len(server.log()[1:MOST + 2]), MOST + 1)
        # On a machine that has other work these lines may be of two seconds, and then all are written: once more.
        if time.monotonic() - begins < 1 or server.log()[-1] != "WARN  a: serving -> not_serving, entry 20 (session 1: down a)":
            break
        server.stop()
    log.has(*TEN_LINES, "WARN  1 line left out")
    log.ends()


def test_of_many_changes_each_is_told_or_counted_as_left_out(start):
    begins = time.monotonic()
    server = start(script="catalogue a -\nregister a manual\nregister - manual\n")
    with server.session() as session:
        for _ in range(3):
            session.send("down a\nup a\n" * 500)
            assert session.answers.read(5_000) == b"done\n" * 1_000
    server.stop()
    seconds = time.monotonic() - begins
    told = sum(" a: " in line for line in server.log())
    left = sum(int(found[1]) for line in server.log() if (found := re.fullmatch(r"WARN  (\d+) lines? left out", line)))
    assert told + left == 3_000
    assert 0 < told <= MOST * (seconds + 1)
