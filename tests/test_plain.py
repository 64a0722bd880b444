"""What a place of `--plain` answers, byte by byte, to each method and target, to bad heads, and to calls as at the service's own port."""
import contextlib
import json
import socket
import subprocess
import sys
import threading
import time

import pytest

from support.lasting import lasting
from support.naming import rows, shown
from support.plain import SERVICES, Numbers, answer, asked, asking, metrics, not_allowed, parted, sent, sent_and_ended, status
from support.process import freeze, thaw
from support.waiting import until
from support.watch import Watch
from support.wire import OK, SERVICE, SERVING, all_of, connect, request, rest_of
from support.wire import status as message

pytestmark = pytest.mark.timed

MOST = 1_000_000_000
# Services with names that have to be escaped somewhere, and one that is listed and not registered.
NAMES = {
    "web1": "serving", "db": "serving", "job": "unknown", "a/b": "serving", "a": "not_serving", 'quote"d': "serving",
    "back\\slash": "not_serving", "50%": "serving", "why?": "serving", "tab\tbed\x01": "serving", "b+c": "serving",
    "<i>&amp;": "serving", "zwölf": "serving", "\ufffd": "serving", "gone": "absent", "": "serving",
}
RULES = {"": "depends web1 db", "db": "threshold 2", "job": "threshold 2 1 unknown"}
SCRIPT = "".join([
    f"catalogue {' '.join(name or '-' for name in NAMES)}\nmax {MOST}\n",
    *(f"register {name or '-'} {RULES.get(name, 'manual')}\n" for name, status in NAMES.items() if status != "absent"),
    *(f"down {name}\n" for name, status in NAMES.items() if status == "not_serving")])
ENTRIES = SCRIPT.count("\n") - 2
PLAIN = ("--plain", "127.0.0.1:0")
CHECK_PATH, WATCH_PATH = f"{SERVICE}/Check", f"{SERVICE}/Watch"
NUMBERS = {"serving": 1, "not_serving": 0, "unknown": -1, "absent": -1}
# The numbers of /metrics that a session's `stats` has too, each with its type and its name there.
FIGURES = {"entries_total": ("counter", "entries"), "entries_left": ("gauge", "left"), "connections": ("gauge", "connections"),
           "watches": ("gauge", "watches"), "sessions": ("gauge", "sessions"), "calls_total": ("counter", "calls"),
           "given_up_total": ("counter", "given_up"), "gone_total": ("counter", "gone"), "behind_total": ("counter", "behind"),
           "expired_total": ("counter", "expired"), "journal_writable": ("gauge", "writable")}
# What it does not have: numbers of the server, of each service, and of each cause.
OTHERS = {"build_info": "gauge", "start_time_seconds": "gauge", "watches_refused_total": "counter", "refused_total": "counter",
          "last_report_timestamp_seconds": "gauge", "expected_seconds": "gauge"}
KINDS = {"service_status": "gauge", **OTHERS, **{name: kind for name, (kind, _) in FIGURES.items()}}
CAUSES = ("bad rule", "full", "no memory", "not listed", "not stored")


@pytest.fixture(scope="module")
def asked_only(program):
    """A server that is only asked: its services stay as the script leaves them."""
    with lasting(program, "--threads", "3", *PLAIN, script=SCRIPT) as server:
        yield server


@pytest.fixture
def server(start):
    """One that a test changes."""
    return start("--threads", "3", *PLAIN, script=SCRIPT)


def escaped(name):
    """A name with each byte that is no letter and no digit percent-encoded."""
    return "".join(chr(byte) if chr(byte).isalnum() and byte < 128 else f"%{byte:02X}" for byte in name.encode())


def named(rows_by_name):
    """The rows of a table by their names."""
    return [pytest.param(*row, id=shown(name)) for name, row in rows_by_name.items()]


def target_of(target, *_):
    return target


def first_lines(server, count):
    """The words with which a server that was not waited for begins the lines in which it tells its places."""
    return [server.process.stdout.readline().split()[0] for _ in range(count)]


def test_the_places_are_told_in_their_order(start):
    assert first_lines(start("--threads", "3", *PLAIN, script=SCRIPT, starts=False), 3) == ["listening", "plain", "control"]


# The status of one service, in each version, with and without a body.

@pytest.mark.parametrize("name, expected", rows(NAMES.items(), target_of))
def test_a_service_of_any_name_is_asked_for_percent_encoded(asked_only, name, expected):
    assert asked(asked_only.plain, asking(f"/status/{escaped(name)}")) == status(expected)


@pytest.mark.parametrize("version", ["1.0", "1.1"])
@pytest.mark.parametrize("method", ["GET", "HEAD"])
@pytest.mark.parametrize("target, expected", rows([
    ("/status/web1", "serving"), ("/status/a", "not_serving"), ("/status/job", "unknown"), ("/status/nobody", None), ("/status/", "serving"),
    ("/healthz", "serving")], target_of))
def test_a_status_is_told_in_each_version_and_to_a_head_without_its_body(asked_only, target, expected, method, version):
    assert asked(asked_only.plain, asking(target, method, version)) == status(expected, method == "GET")


def test_http_1_0_may_have_no_header_line(asked_only):
    assert asked(asked_only.plain, "GET /status/web1 HTTP/1.0\r\n\r\n") == status("serving")


def test_a_get_as_haproxy_sends_it_is_answered(asked_only):
    assert asked(asked_only.plain, "GET /status/a HTTP/1.0\r\n\r\n") == status("not_serving")


TARGETS = [
    ("/status/web1?verbose", "serving"), ("/status/web1?", "serving"), ("/status/web1?a=/b&c=%zz", "serving"),
    ("/healthz?x=1", "serving"), ("/status/?web1", "serving"), ("/status/%77eb1", "serving"), ("/status/web%31", "serving"),
    ("/status/a%2fb", "serving"), ("/status/a%2Fb", "serving"), ("/status/a/b", None), ("/status/b+c", "serving"),
    ("/status/zw%C3%B6lf", "serving"), ("/status/zw%c3%b6lf", "serving"), ("/status/zw\u00f6lf", "serving"), ("/status/%66%6F%6F", None),
    ("/status/-", None), ("/status/WEB1", None), ("/status/web1%20", None), ("/status/web1%00", None), ("/status/%", None),
    ("/status/web1%", None), ("/status/web1%3", None), ("/status/%zz", None), ("/status/%3g", None), ("/status/%ff", None),
    ("/status/%c3", None), ("/status/web%2531", None), ("/status/50%25", "serving"), ("/status/50%", None), ("/status/" + "x" * 3000, None),
]


@pytest.mark.parametrize("target, expected", rows(TARGETS, target_of))
def test_a_target_is_decoded_once_and_has_the_whole_name_and_any_query(asked_only, target, expected):
    assert asked(asked_only.plain, asking(target)) == status(expected)


@pytest.mark.parametrize("method", ["GET", "HEAD", "POST", "OPTIONS"])
@pytest.mark.parametrize("target", [
    "/status", "/status/web1/", "//status/web1", "/STATUS/web1", "/healthz/", "/Healthz", "/service", "/services/", "/metrics/", "/metric",
    "/index.html", "/favicon.ico", "/grpc.health.v1.Health/", "/grpc.health.v1.Health/Checks", "/%73ervices", "/../healthz", "*", "?",
    "http://localhost/healthz"])
def test_another_target_is_not_found_by_any_method(asked_only, target, method):
    assert asked(asked_only.plain, asking(target, method)) == status(None, method != "HEAD")


@pytest.mark.parametrize("method", ["POST", "PUT", "DELETE", "OPTIONS", "PATCH", "get", "BREW"])
@pytest.mark.parametrize("target", ["/status/web1", "/status/nobody", "/status/", "/healthz", "/services", "/metrics", "/", "/?x", "/healthz?x"])
def test_what_is_read_takes_get_and_head_alone(asked_only, target, method):
    assert asked(asked_only.plain, asking(target, method)) == not_allowed("GET, HEAD")


@pytest.mark.parametrize("method", ["GET", "HEAD", "PUT", "OPTIONS", "post"])
@pytest.mark.parametrize("target", [CHECK_PATH, WATCH_PATH])
def test_a_call_takes_post_alone(asked_only, target, method):
    assert asked(asked_only.plain, asking(target, method)) == not_allowed("POST", method != "HEAD")


# The page, all services, and the numbers.

@pytest.fixture(scope="session")
def page(sources):
    return (sources / "crates/plain/page.html").read_bytes().decode()


PAGE = ("content-type: text/html; charset=utf-8", "cache-control: no-store",
        "content-security-policy: default-src 'none'; style-src 'unsafe-inline'; script-src 'unsafe-inline'; connect-src 'self'; "
        "base-uri 'none'; form-action 'none'; frame-ancestors 'none'")


def test_the_constant_of_the_program_is_made_of_the_page(sources):
    made = [sys.executable, "-B", f"{sources}/crates/plain/page_source.py", "--compare", f"{sources}/crates/plain/src/page.rt"]
    compared = subprocess.run(made, capture_output=True, text=True, timeout=30)
    assert (compared.returncode, compared.stderr) == (0, "")


@pytest.mark.parametrize("target", ["/", "/?", "/?service=web1"])
def test_the_page_is_that_of_the_sources_with_any_query(asked_only, page, target):
    assert asked(asked_only.plain, asking(target)) == answer("200 OK", *PAGE, body=page)


def test_a_head_of_the_page_has_its_length(asked_only, page):
    assert asked(asked_only.plain, asking("/", "HEAD")) == answer("200 OK", *PAGE, body=page, sends=False)


def services(server):
    """The body of /services, whose members have this order."""
    line, fields, body = asked(server.plain, asking("/services"))
    assert (line, fields, body) == answer("200 OK", "content-type: application/json", "cache-control: no-store", body=body.decode())
    assert body.endswith(b"}\n") and body.count(b"\n") == 1
    return json.loads(body, object_pairs_hook=lambda pairs: pairs)


def test_services_has_each_name_and_its_status_in_order(asked_only):
    assert services(asked_only) == [
        ("entries", ENTRIES), ("services", [[("name", name), ("status", status)] for name, status in NAMES.items()])]


def test_a_head_of_services_has_their_length_and_no_body(asked_only):
    length = len(asked(asked_only.plain, asking("/services"))[2])
    line, fields, body = asked(asked_only.plain, asking("/services", "HEAD"))
    assert (line, body) == ("HTTP/1.1 200 OK", b"")
    assert f"content-length: {length}" in fields


def test_metrics_has_the_status_of_each_service(asked_only):
    assert Numbers(asked_only.plain).of["service_status"] == {name or "-": NUMBERS[status] for name, status in NAMES.items()}


@pytest.mark.parametrize("metric", SERVICES[1:])
def test_metrics_has_each_service_of_which_nothing_is_known_yet(asked_only, metric):
    assert Numbers(asked_only.plain).of[metric] == {name or "-": 0 for name in NAMES}


def test_metrics_has_each_number_of_the_server(asked_only):
    assert sorted(Numbers(asked_only.plain).others) == sorted([*FIGURES, *OTHERS][:-3])


def test_metrics_has_each_cause_of_a_refusal(asked_only):
    assert Numbers(asked_only.plain).causes == {cause: 0 for cause in CAUSES}


@pytest.mark.parametrize("name, kind", KINDS.items())
def test_a_metric_has_a_line_of_help_before_its_type_and_its_numbers_after_it(asked_only, name, kind):
    lines = metrics(asked_only.plain).split("\n")
    at = lines.index(f"# TYPE healthd_{name} {kind}")
    assert at > 0 and lines[at - 1].startswith(f"# HELP healthd_{name} ")
    assert lines[at + 1].startswith((f"healthd_{name} ", f"healthd_{name}{{"))


def test_metrics_ends_with_a_line_feed_and_has_no_empty_line(asked_only):
    lines = metrics(asked_only.plain).split("\n")
    assert lines[-1] == "" and "" not in lines[:-1]


@pytest.mark.parametrize("line", ['healthd_service_status{service="quote\\"d"} 1', 'healthd_service_status{service="back\\\\slash"} 0'],
                         ids=["quote", "backslash"])
def test_quotes_and_backslashes_are_escaped_in_metrics(asked_only, line):
    assert line in metrics(asked_only.plain).split("\n")


def test_a_head_of_metrics_has_no_body(asked_only):
    line, _, body = asked(asked_only.plain, asking("/metrics", "HEAD"))
    assert (line, body) == ("HTTP/1.1 200 OK", b"")


# What changes the numbers. A look at them is a connection itself, and ends as a call.

def test_a_service_that_is_not_heard_from_is_not_serving_which_is_counted_and_is_no_report(server):
    assert server.tell("expect", "db", "1") == ("done", 0)
    until(lambda: Numbers(server.plain).of["expected_seconds"]["db"], 1)
    until(lambda: asked(server.plain, asking("/status/db")), status("not_serving"))
    server.tell("expect", "db", "0")
    until(lambda: Numbers(server.plain).others["expired_total"], 1)
    time.sleep(0.3)  # what would take the fail for a report, of it or of the whole server beside it, does so by then: there is none
    reports = Numbers(server.plain).of["last_report_timestamp_seconds"]
    assert (reports["db"], reports["-"]) == (0, 0)


def test_a_report_has_its_time_and_another_service_has_none(server):
    def reports():
        return Numbers(server.plain).of["last_report_timestamp_seconds"]

    reported = int(time.time())
    server.tell("fail", "db")
    until(lambda: reported <= reports()["db"] <= time.time(), True)
    assert reports()["job"] == 0


def test_a_later_report_has_a_later_time_in_whole_seconds(server):
    def reported():
        server.tell("pass", "db")
        return Numbers(server.plain).of["last_report_timestamp_seconds"]["db"]

    first = reported()
    until(lambda: reported() > first, True)


def test_a_service_that_is_late_in_the_catalogue_has_its_numbers(server):
    def number(metric):
        return Numbers(server.plain).of[metric]["gone"]

    with server.session() as session:
        assert [session.ask(line) for line in ("register gone threshold 1", "expect gone 3600")] == ["done"] * 2
        until(lambda: number("expected_seconds"), 3600)
        assert number("last_report_timestamp_seconds") == 0
        reported = int(time.time())
        session.ask("pass gone")
        until(lambda: reported <= number("last_report_timestamp_seconds") <= time.time(), True)
        assert session.ask("retire gone") == "done"


@pytest.mark.parametrize("line, cause", [("register web1 depends zwölf", "bad rule"), ("up nobody", "not listed")],
                         ids=["a bad rule", "not listed"])
def test_a_change_that_is_refused_is_counted_by_its_cause(server, line, cause):
    before = Numbers(server.plain).causes
    with server.session() as session:
        assert session.ask(line) == f"refused {cause}"
    assert Numbers(server.plain).causes == {**before, cause: before[cause] + 1}


def stats_of(session):
    words = session.ask("stats").split()
    return dict(zip(words[::2], map(int, words[1::2])))


@contextlib.contextmanager
def watched_twice(server, name="web1"):
    """Watches of a service at both places: at the service's own port, and at the plain one."""
    with contextlib.closing(server.watch(name)) as own, contextlib.closing(Watch(connect(server.plain, 20), name)) as plain:
        yield own, plain


def test_the_numbers_of_metrics_are_those_of_stats(server):
    with server.session() as session, watched_twice(server) as watches:
        assert [watch.next() for watch in watches] == [SERVING] * 2
        until(lambda: Numbers(server.plain).others["watches"], 2)
        # Beside them one has gone, a service has expired, and a change was refused: most of the numbers are not 0.
        connect(server.plain).close()
        session.ask("expect db 1")
        until(lambda: stats_of(session)["expired"], 1)
        session.ask("expect db 0")
        assert session.ask("up nobody") == "refused not listed"
        # The looks before are over, and their connections closed.
        until(lambda: stats_of(session)["connections"], 2)
        before = stats_of(session)
        figures = Numbers(server.plain).others
        after = stats_of(session)
        others = {name: (before[stat], figures[name], after[stat]) for name, (_, stat) in FIGURES.items()
                  if not before[stat] <= figures[name] <= after[stat] + (stat == "connections")}
        assert others == {}
        # What is left and what there is are the most that can be.
        assert figures["entries_left"] + figures["entries_total"] == MOST


@pytest.fixture
def of_one_watch(start):
    """A server that has one Watch at most, which a test may close to open another."""
    return start("--watches", "1", *PLAIN)


def refused_watches(server):
    return Numbers(server.plain).others["watches_refused_total"]


def test_a_watch_that_finds_no_place_is_told_its_status_and_ends_and_is_counted(of_one_watch):
    with contextlib.closing(of_one_watch.watch()) as kept:
        assert kept.next() == SERVING
        for count in (1, 2):
            with contextlib.closing(of_one_watch.watch()) as refused:
                assert refused.rest() == [SERVING]
            # The loop tells its counts once it has seen to all of its connections.
            until(lambda: refused_watches(of_one_watch), count)


def test_once_the_place_of_a_watch_is_free_another_is_held_and_neither_counts_as_refused(of_one_watch):
    server = of_one_watch
    with contextlib.closing(server.watch()) as kept:
        assert kept.next() == SERVING
        for _ in range(2):
            with contextlib.closing(server.watch()) as refused:
                assert refused.rest() == [SERVING]
    until(lambda: server.stats()["watches"], 0)
    with contextlib.closing(server.watch()) as kept:
        assert kept.next() == SERVING
        server.tell("down", "a")
        assert kept.next() == 2
        until(lambda: server.stats()["watches"], 1)
        assert refused_watches(server) == 2


def test_services_are_told_at_one_point_of_the_history_and_each_time_at_a_later_one(server):
    # Beside changes the number of entries says what web1 is, and with it the whole server.
    base = dict(services(server))["entries"]
    ends = threading.Event()

    def pour():
        with server.session() as session:
            while not ends.is_set():
                session.ask_many("down web1\nup web1", 10)
                for _ in range(10):
                    session.answer()

    seen, begins = [], time.monotonic()

    def has_seen_changes():
        return len({entries for entries, _, _ in seen}) > 20 and len({web1 for _, web1, _ in seen}) == 2

    pouring = threading.Thread(target=pour, daemon=True)
    pouring.start()
    try:
        while len(seen) < 200 or not has_seen_changes() and time.monotonic() - begins < 20:
            found = dict(services(server))
            told = {dict(service)["name"]: dict(service)["status"] for service in found["services"]}
            seen.append((found["entries"], told["web1"], told[""]))
    finally:
        ends.set()
        pouring.join()
    assert [(entries, web1, whole) for entries, web1, whole in seen
            if web1 != whole or web1 != ("serving" if (entries - base) % 2 == 0 else "not_serving")] == []
    assert [entries for entries, _, _ in seen] == sorted(entries for entries, _, _ in seen)
    assert has_seen_changes()


# Heads that come in pieces, that are cut, that say more, and that are none.

def test_a_head_that_comes_byte_by_byte_is_answered(asked_only):
    with connect(asked_only.plain) as client:
        for byte in asking("/status/web1").encode():
            client.sendall(bytes([byte]))
            time.sleep(0.005)
        assert parted(rest_of(client)) == status("serving")


def test_a_client_that_has_closed_its_side_is_answered(asked_only):
    assert parted(sent_and_ended(asked_only.plain, asking("/status/web1").encode())) == status("serving")


@pytest.mark.parametrize("cut", rows([
    (b"G",), (b"GET /status/web1",), (b"GET /status/web1 HTTP/1.1\r\nhost: x\r\n",), (b"GET /status/web1 HTTP/1.1\r\n\r",)], target_of))
def test_a_head_that_is_cut_has_no_answer(asked_only, cut):
    assert sent_and_ended(asked_only.plain, cut) == b""


ROOM = 8_192 - len(asking("/status/web1", more="x: \r\n"))


@pytest.mark.parametrize("request_, expected", named({
    "the first request of a connection, and no other": (asking("/status/a") + asking("/status/web1"), "not_serving"),
    "keep-alive, which is not kept": (asking("/status/web1", more="connection: keep-alive\r\n"), "serving"),
    "an empty line before the request, which is skipped": ("\r\n" + asking("/status/web1"), "serving"),
    "what comes after a request, which is not waited for": (asking("/healthz") + "x" * 5000, "serving"),
    "32 header lines": (asking("/status/web1", more="".join(f"x{number}: y\r\n" for number in range(31))), "serving"),
    "a head of 8,192 bytes": (asking("/status/web1", more=f"x: {'y' * ROOM}\r\n"), "serving"),
}))
def test_a_head_that_says_more_is_answered(asked_only, request_, expected):
    assert asked(asked_only.plain, request_) == status(expected)


REFUSALS = {
    "a head of more than 8,192 bytes": ("431", asking("/status/web1", more=f"x: {'y' * (ROOM + 1)}\r\n")),
    "a head of 8,192 bytes that has no end": ("431", "GET /" + "x" * 8_187),
    "a target of 20,000 bytes": ("431", asking("/status/" + "x" * 20_000)),
    "33 header lines": ("431", asking("/status/web1", more=f"x: {'y' * 100}\r\n" * 32)),
    "a header line without a colon": ("400", asking("/status/web1", more="nothing\r\n")),
    "a request line without a version": ("400", "GET /status/web1\r\n\r\n"),
    "HTTP/0.9": ("400", "GET /status/web1 HTTP/0.9\r\n\r\n"),
    "HTTP/1.2": ("400", asking("/status/web1", version="1.2")),
    "HTTP/2.0": ("400", "PRI * HTTP/2.0\r\n\r\nSM\r\n\r\n"),
    "a space in the target": ("400", "GET /status/web1 x HTTP/1.1\r\n\r\n"),
    "two empty lines": ("400", "\r\n\r\n"),
    "TLS": ("400", b"\x16\x03\x01\x02\x00\x01\x00\x01\xfc\x03\x03\r\n\r\n"),
}


@pytest.mark.parametrize("code, request_", named(REFUSALS))
def test_a_head_that_is_none_is_refused_as_at_the_service_s_own_port(asked_only, code, request_):
    found = sent(asked_only.plain, request_)
    assert found == sent(asked_only.port, request_)
    assert found.startswith(f"HTTP/1.1 {code} ".encode()) and found.endswith(b"content-length: 0\r\n\r\n")


# Calls have the same answer at both places.

def call(method, body=request("a"), kind="application/grpc-web+proto", version="1.1", more="", length=None):
    length = len(body) if length is None else length
    return (f"POST {SERVICE}/{method} HTTP/{version}\r\nhost: localhost\r\ncontent-type: {kind}\r\n{more}"
            f"content-length: {length}\r\n\r\n").encode() + body


SERVES = call("Check", request("web1"))
CALLS = {
    "a Check of a service that serves": (200, SERVES),
    "one that does not": (200, call("Check", request("a"))),
    "one that is unknown": (200, call("Check", request("job"))),
    "the whole server": (200, call("Check", request(""))),
    "an unknown service": (200, call("Check", request("nobody"))),
    "one that is absent": (200, call("Check", request("gone"))),
    "a name with a slash": (200, call("Check", request("a/b"))),
    "the other content type": (200, call("Check", request("web1"), "application/grpc-web")),
    "a request that is malformed": (200, call("Check", b"\0\0\0\0\x7f")),
    "an empty body": (200, call("Check", b"")),
    "a wrong content type": (415, call("Check", kind="application/json")),
    "a text of base64": (415, call("Check", kind="application/grpc-web-text")),
    "HTTP/1.0": (505, call("Check", version="1.0")),
    "chunks": (411, call("Check", more="transfer-encoding: chunked\r\n")),
    "two lengths": (400, call("Check", more="content-length: 3\r\n")),
    "a length that is too large": (200, call("Check", length=8_193)),
    "a Watch of a wrong content type": (415, call("Watch", kind="text/plain")),
    "a Watch that is malformed": (200, call("Watch", b"\1\0\0\0\0")),
}


@pytest.mark.parametrize("code, request_", named(CALLS))
def test_a_call_is_answered_as_at_the_service_s_own_port(asked_only, code, request_):
    found = sent(asked_only.plain, request_)
    assert found == sent(asked_only.port, request_)
    assert found.startswith(f"HTTP/1.1 {code} ".encode())


def test_a_check_is_serving(asked_only):
    assert sent(asked_only.plain, SERVES).endswith(message(SERVING) + OK)


def test_a_check_that_comes_byte_by_byte_is_answered(asked_only):
    with connect(asked_only.plain) as client:
        for byte in SERVES:
            client.sendall(bytes([byte]))
        assert all_of(client).endswith(OK)


def test_a_query_is_no_part_of_a_call_s_target(asked_only):
    assert sent(asked_only.plain, SERVES.replace(b"/Check", b"/Check?x"))[:13] in (b"HTTP/1.1 404 ", b"HTTP/1.1 200 ")


@pytest.mark.parametrize("options, targets, expected", named({
    "a service that serves": (("--fail",), ("/status/web1",), ("serving\n", 0)),
    "one that does not": (("--fail",), ("/status/a",), ("", 22)),
    "one that is not found": (("--fail",), ("/status/nobody",), ("", 22)),
    "the word of one that does not": ((), ("/status/a",), ("not_serving\n", 0)),
    "HTTP/1.0": (("--http1.0", "--fail"), ("/healthz",), ("serving\n", 0)),
    "the number of a status": (("--head", "--output", "/dev/null", "--write-out", "%{http_code} %{content_type}"), ("/status/job",),
                               ("503 text/plain; charset=utf-8", 0)),
    "two in a row": ((), ("/status/web1", "/status/a"), ("serving\nnot_serving\n", 0)),
    "HTTP/2 by an upgrade": (("--http2", "--fail"), ("/healthz",), ("serving\n", 0)),
}))
def test_curl_is_answered_as_a_script_uses_it(asked_only, options, targets, expected):
    places = [f"http://127.0.0.1:{asked_only.plain}{target}" for target in targets]
    ran = subprocess.run(["curl", "--silent", "--show-error", *options, *places], capture_output=True, text=True, timeout=20)
    assert (ran.stdout, ran.returncode) == expected


def test_forty_changes_are_told_by_watches_at_both_places_once_and_in_order_and_so_is_their_end(server):
    with watched_twice(server) as watches:
        with server.session() as session:
            session.ask_many("down web1\nup web1", 20)
            assert [session.answer() for _ in range(20)] == ["done"] * 20
        assert [watch.told(41) for watch in watches] == [[1] + [2, 1] * 20] * 2
        server.stop()
        assert [watch.rest() for watch in watches] == [[], []]


# Clients that take long, and many of them.

def test_clients_that_are_silent_or_slow_have_ten_seconds_and_cost_nobody_else_an_answer(server, pauses):
    began = time.monotonic()
    ended, answers = [], []
    with contextlib.ExitStack() as opened:
        silent = [opened.enter_context(connect(port, 30)) for port in [server.port] + [server.plain] * 4]
        slow = [opened.enter_context(connect(server.plain, 30)) for _ in range(3)]
        waiting = [threading.Thread(target=lambda client: ended.append((rest_of(client), time.monotonic() - began)), args=(client,), daemon=True)
                   for client in silent + slow]
        for thread in waiting:
            thread.start()
        for byte in b"GET /status":
            for client in slow:
                with contextlib.suppress(OSError):
                    client.sendall(bytes([byte]))
            answers += [asked(server.plain, asking("/status/web1")), asked(server.plain, asking("/healthz", version="1.0"))]
            answers += [sent(place, SERVES).endswith(OK) for place in (server.port, server.plain)]
            time.sleep(1)  # they are slow: a byte a second
        for thread in waiting:
            thread.join()
    assert [answer for answer in answers if answer not in (True, status("serving"))] == []
    # They are closed without a word, ten seconds after they came.
    pause = pauses.since(began)
    assert [(said, 9.5 < after < 14 + pause) for said, after in ended] == [(b"", True)] * 8, ended
    # They are given up, and counted so.
    until(lambda: server.stats()["given_up"], 8)
    until(lambda: Numbers(server.plain).others["given_up_total"], 8)


def test_a_get_waits_where_all_connections_are_taken_and_is_answered_once_one_is_free(start):
    server = start("--threads", "2", "--connections", "3", "--watches", "2", *PLAIN, script=SCRIPT)
    with contextlib.ExitStack() as opened:
        taken = [opened.enter_context(connect(server.plain)) for _ in range(3)]
        for client in taken:
            client.sendall(b"GET ")
        until(lambda: server.stats()["connections"], 3)
        late = opened.enter_context(connect(server.plain, 0.3))
        late.sendall(asking("/status/web1").encode())
        with pytest.raises(TimeoutError):
            late.recv(100)
        taken.pop().close()
        late.settimeout(20)
        assert parted(rest_of(late)) == status("serving")


def test_nobody_listens_at_the_plain_place_once_the_server_has_ended(server):
    server.stop()
    with pytest.raises(ConnectionRefusedError):
        connect(server.plain).close()


@pytest.mark.parametrize("is_check", [True, False], ids=["Check", "GET"])
def test_both_places_take_turns_so_that_one_gets_in_beside_many_that_wait_at_the_other_place(start, is_check):
    server = start("--threads", "1", "--connections", "2", "--watches", "1", *PLAIN, script=SCRIPT)
    asks = {server.port: SERVES, server.plain: asking("/status/web1").encode()}
    place, full = (server.port, server.plain) if is_check else (server.plain, server.port)

    def gets_in():
        """What one is answered who comes to the place last, while nobody is accepted."""
        with contextlib.ExitStack() as opened:
            freeze(server.process)
            try:
                # They are more than may be connected.
                waiting = [opened.enter_context(connect(full)) for _ in range(4)]
                for client in waiting:
                    client.sendall(b"GET ")
                late = opened.enter_context(connect(place, 5))
                late.sendall(asks[place])
            finally:
                thaw(server.process)
            found = rest_of(late)
        # Connections are handed over in their order: once one is answered that came after them, none of those is left that was not accepted.
        sent(full, asks[full], 5)
        until(lambda: server.stats()["connections"], 0)
        return found

    for _ in range(4):
        found = gets_in()
        assert found.endswith(OK) if is_check else parted(found) == status("serving")


# Sockets that are handed over, and places that there are not.

def test_of_two_sockets_that_are_handed_over_the_second_is_the_plain_place(start):
    with socket.create_server(("127.0.0.1", 0)) as first, socket.create_server(("127.0.0.1", 0)) as second:
        server = start(*PLAIN, script=SCRIPT, handed=(first, second))
        assert (server.port, server.plain) == (first.getsockname()[1], second.getsockname()[1])
        assert asked(server.plain, asking("/status/web1")) == status("serving")


def test_a_place_that_is_taken_is_refused(program):
    with socket.create_server(("127.0.0.1", 0)) as there:
        place = f"127.0.0.1:{there.getsockname()[1]}"
        ran = program.run("run", "--listen", "127.0.0.1:0", "--plain", place, given=SCRIPT)
    assert (ran.returncode, ran.stderr.splitlines()[-1:]) == (1, [f"healthd: bind {place}: address in use"])


def test_a_place_that_is_none_is_a_refused_command_line(program):
    assert program.run("run", "--listen", "127.0.0.1:0", "--plain", "nowhere", given=SCRIPT).returncode == 2


def test_without_plain_there_is_no_such_place(start):
    assert first_lines(start(script=SCRIPT, starts=False), 2) == ["listening", "control"]


def test_without_plain_the_service_s_own_port_takes_no_get(start):
    assert asked(start(script=SCRIPT).port, asking("/status/web1")) == answer("405 Method Not Allowed", "allow: POST")
