"""`healthd observe`: targets that answer well, badly, late and not at all, many at once, and a control place that comes and goes."""
import contextlib
import re
import shutil
import signal
import socket
import subprocess
import threading
import time
from pathlib import Path

import pytest

from support.lasting import lasting
from support.naming import command_line, rows, shown
from support.process import processor_seconds
from support.serving import free_port
from support.waiting import until
from support.wire import NOT_SERVING, SERVING, trailers
from support.wire import OK as OK_TRAILERS
from support.wire import status as message

pytestmark = pytest.mark.timed

NAMES = "good bad moved away silent closed cut slowly down other refused"
SCRIPT = "".join([f"catalogue {NAMES} -\n", *(f"register {name} threshold 1 1 unknown\n" for name in NAMES.split()), "register - manual\n"])
OTHER = "catalogue a -\nregister a threshold 1 1 unknown\nregister - depends a\nexpect a 2\n"
OK = b"HTTP/1.1 200 OK\r\ncontent-length: 2\r\n\r\nok"
HEAD = b"HTTP/1.1 200 OK\r\ncontent-length: %d\r\n\r\n"
LATE = "fail: late"
# Ten of them come in a second.
LOOKS = 25


class Target:
    """A server that serves each client by a function, in a thread of its own."""

    def __init__(self, serve):
        self.listener = socket.create_server(("127.0.0.1", 0), backlog=256)
        self.port = self.listener.getsockname()[1]
        self.serve, self.asked, self.starts = serve, b"", []
        self.has_ended = threading.Event()
        threading.Thread(target=self.run, daemon=True).start()

    def run(self):
        with contextlib.suppress(OSError):
            while True:
                client, _ = self.listener.accept()
                self.starts.append(time.monotonic())
                threading.Thread(target=self.one, args=(client,), daemon=True).start()

    def one(self, client):
        with client, contextlib.suppress(OSError):
            self.serve(self, client)

    def close(self):
        self.has_ended.set()
        with contextlib.suppress(OSError):
            self.listener.shutdown(socket.SHUT_RDWR)
        self.listener.close()


def is_whole(asked):
    """Whether a request has come with its body."""
    front, end, body = asked.partition(b"\r\n\r\n")
    length = re.search(rb"\r\ncontent-length: (\d+)", front)
    return end and len(body) >= (int(length[1]) if length else 0)


def answers(*parts, pause=0.0):
    """Reads a request, and sends these bytes one after the other."""
    def serve(target, client):
        asked = b""
        while not is_whole(asked):
            part = client.recv(4096)
            if not part:
                return
            asked += part
        target.asked = asked
        for part in parts:
            client.sendall(part)
            time.sleep(pause)
    return serve


def is_silent(target, _):
    target.has_ended.wait(20)


def closes(*_):
    pass


@contextlib.contextmanager
def targets_of(*serving):
    with contextlib.ExitStack() as opened:
        yield [opened.enter_context(contextlib.closing(Target(serve))) for serve in serving]


@pytest.fixture
def target():
    """Opens a target, which ends with the test."""
    with contextlib.ExitStack() as opened:
        yield lambda serve: opened.enter_context(contextlib.closing(Target(serve)))


@pytest.fixture
def good(target):
    return target(answers(OK))


@pytest.fixture
def server(start):
    return start(script=SCRIPT)


def observe(server, *words, place=None):
    """What an `observe` that ends by itself prints and says, and its exit status."""
    ran = server.program.run("observe", "--control", place or server.control, *words, timeout=60)
    return ran.stdout, ran.stderr, ran.returncode


@contextlib.contextmanager
def observing(server, *words, place=None, before=(), **how):
    """An `observe` that goes on, and is killed at the end."""
    process = subprocess.Popen([*before, str(server.program), "observe", "--control", place or server.control, *words],
                               **{"stdout": subprocess.DEVNULL, "stderr": subprocess.DEVNULL, "text": True, **how})
    try:
        yield process
    finally:
        process.kill()
        process.communicate(timeout=20)


def status(server, name):
    return server.tell("check", name)[0]


# Once: each target as it is, printed and told at the place for reports.

EXPECTED = {
    "good": "pass", "bad": "fail: status 503", "moved": "pass", "away": "fail: refused", "silent": LATE, "closed": "fail: closed before its answer",
    "cut": "fail: closed before its answer", "slowly": "pass", "down": "fail: not_serving", "other": "pass", "refused": "pass",
}


class Looked:
    """What one look at each target prints, says and does."""

    def __init__(self, program):
        script = "catalogue up down -\nregister up manual\nregister down manual\nregister - manual\ndown down\n"
        with contextlib.ExitStack() as opened:
            healthd = opened.enter_context(lasting(program, script=script))
            server = opened.enter_context(lasting(program, "--report", "127.0.0.1:0", script=SCRIPT))
            good, bad, moved, silent, closed, cut, slowly = opened.enter_context(targets_of(
                answers(OK), answers(b"HTTP/1.1 503 Service Unavailable\r\ncontent-length: 0\r\n\r\n"),
                answers(b"HTTP/1.1 302 Found\r\nlocation: /elsewhere\r\ncontent-length: 0\r\n\r\n"), is_silent, closes, answers(b"HTTP/1.1 20"),
                answers(*(bytes([byte]) for byte in OK[:24]), pause=0.01)))
            # Nobody listens there, and nobody else can as long as it is bound.
            nobody = opened.enter_context(socket.socket())
            nobody.bind(("127.0.0.1", 0))
            urls = {
                "good": f"http://127.0.0.1:{good.port}/live?x=1", "bad": f"http://localhost:{bad.port}/", "moved": f"http://127.0.0.1:{moved.port}/",
                "away": f"tcp://127.0.0.1:{nobody.getsockname()[1]}", "silent": f"http://127.0.0.1:{silent.port}/",
                "closed": f"http://127.0.0.1:{closed.port}/", "cut": f"http://127.0.0.1:{cut.port}/", "slowly": f"http://127.0.0.1:{slowly.port}/",
                "down": f"grpc-web://127.0.0.1:{healthd.port}/down", "other": f"grpc-web://127.0.0.1:{healthd.port}/up",
                "refused": f"tcp://127.0.0.1:{silent.port}",
            }
            self.printed, self.said, self.code = observe(server, "--once", "--every", "8", "--timeout", "4",
                                                         *(f"{name}={url}" for name, url in urls.items()), place=server.report)
            self.told = {name: status(server, name) for name in urls}
            self.entries = server.stats()["entries"]
            self.asked, self.good = good.asked, f"127.0.0.1:{good.port}"


@pytest.fixture(scope="module")
def looked(program):
    return Looked(program)


def test_once_ends_with_3_where_one_failed_and_says_nothing(looked):
    assert (looked.code, looked.said) == (3, "")


def test_once_prints_a_line_of_each_target_in_their_order(looked):
    assert looked.printed == "".join(f"{name} {expected}\n" for name, expected in EXPECTED.items())


@pytest.mark.parametrize("name, expected", EXPECTED.items(), ids=lambda text: text.replace(" ", "_"))
def test_each_target_is_told(looked, name, expected):
    assert looked.told[name] == ("serving" if expected == "pass" else "not serving")


def test_a_get_has_its_host_and_path(looked):
    assert looked.asked.startswith(b"GET /live?x=1 HTTP/1.1\r\n") and looked.good.encode() in looked.asked


def test_each_look_is_one_report(looked):
    assert looked.entries == 12 + len(EXPECTED)


@pytest.mark.parametrize("options", [(), ("-v",)], ids=["alone", "with -v too"])
def test_a_target_is_printed_once(server, good, options):
    assert observe(server, "--once", *options, f"good=tcp://127.0.0.1:{good.port}") == ("good pass\n", "", 0)


def test_a_name_is_looked_up_and_looked_at(server, good):
    printed, _, code = observe(server, "--once", f"good=tcp://localhost:{good.port}")
    assert (printed, code) == ("good pass\n", 0)


def test_a_look_takes_as_long_as_it_may_and_no_longer(server, target, within):
    begins = time.monotonic()
    with within(5):
        printed, _, code = observe(server, "--once", "--every", "60", "--timeout", "1", f"silent=http://127.0.0.1:{target(is_silent).port}/")
    assert time.monotonic() - begins >= 1
    assert (printed, code) == (f"silent {LATE}\n", 3)


def test_the_whole_server_of_another_healthd_is_looked_at(server, start):
    healthd = start(script="catalogue down -\nregister down manual\nregister - manual\ndown down\n")
    assert observe(server, "--once", f"other=grpc-web://127.0.0.1:{healthd.port}/")[2] == 0


def test_a_name_that_is_refused_is_said_and_ends_with_1(server, good):
    _, said, code = observe(server, "--once", f"good=tcp://127.0.0.1:{good.port}", "nobody=tcp://127.0.0.1:1")
    assert code == 1 and "nobody" in said and "good" not in said


def test_a_place_where_nobody_is_ends_with_1(server, good, folder):
    _, said, code = observe(server, "--once", f"good=tcp://127.0.0.1:{good.port}", place=f"{folder}/nobody")
    assert code == 1 and f"{folder}/nobody" in said


# Many targets.

def looks_of_many(server, many):
    """How many looks a second there are at a hundred targets, and how many of them come within a tenth of a second at most."""
    begins = time.monotonic()
    words = [f"good=http://127.0.0.1:{many.port}/{number}" for number in range(100)]
    with observing(server, "--every", "1", "--timeout", "0.8", *words) as process:
        time.sleep(4.5)  # their rate is counted over seconds
        process.send_signal(signal.SIGTERM)
        process.wait(20)
    starts = [start for start in list(many.starts) if start >= begins]
    rate = sum(begins + 1.5 <= start < begins + 3.5 for start in starts) / 2
    return rate, max((sum(start <= other < start + 0.1 for other in starts) for start in starts), default=0)


def test_a_hundred_targets_are_looked_at_each_second_and_their_looks_are_spread(server, good):
    # Looks come all at once where the observer, or what takes them here, had no turn for some tenths of a second: then they are counted again.
    for _ in range(3):
        rate, fullest = looks_of_many(server, good)
        if 70 <= rate <= 110 and fullest <= 40:
            break
    assert 70 <= rate <= 110  # looks a second
    assert fullest <= 40  # within a tenth of a second


def test_reports_of_one_of_three_hundred_come_in_time(server, good, within):
    with socket.create_server(("127.0.0.1", 0), backlog=512) as listener:
        words = [*(f"moved=tcp://127.0.0.1:{good.port}" for _ in range(299)), f"away=tcp://127.0.0.1:{listener.getsockname()[1]}"]
        with observing(server, "--every", "1", "--timeout", "0.8", *words):
            until(lambda: status(server, "away"), "serving")
            time.sleep(3)  # all of them are looked at for some rounds
            listener.close()
            with within(8):
                until(lambda: status(server, "away"), "not serving")


# A target that comes and goes, a control place that is started again, and an observer that is killed.

def listening(port):
    return socket.create_server(("127.0.0.1", port), backlog=64)


def test_a_target_that_comes_and_goes_a_place_that_is_lost_and_found_and_an_observer_that_dies_are_told(start, folder, within):
    # Its port is none that the system gives to others while nobody listens there.
    port, place = free_port(), f"{folder}/other"
    listener, other = listening(port), start(script=OTHER, control=place)
    with observing(other, "-v", "--every", "0.3", "--timeout", "0.2", f"a=tcp://127.0.0.1:{port}", stdout=subprocess.PIPE,
                   stderr=subprocess.PIPE) as process:
        until(lambda: status(other, "a"), "serving")
        listener.close()
        until(lambda: status(other, "a"), "not serving")
        with listening(port):
            until(lambda: status(other, "a"), "serving")
            other.stop()
            time.sleep(1.5)  # the place is away for several looks
            other = start(script=OTHER, control=place)
            until(lambda: status(other, "a"), "serving")
            process.kill()
            # A dead observer is a failing service.
            with within(5):
                until(lambda: status(other, "a"), "not serving")
        printed, said = process.communicate(timeout=5)
    # -v prints each look; that the place is lost and found is said.
    assert len(re.findall(r"^a pass$", printed, re.M)) > 3 and "a fail: refused" in printed
    assert said.count(place) == 2


def test_an_observer_that_has_nothing_to_look_at_for_long_takes_next_to_no_time_of_the_processor(server, good):
    with observing(server, "--every", "60", f"good=tcp://127.0.0.1:{good.port}") as process:
        time.sleep(4)  # nothing is done
        assert processor_seconds(process) < 0.1


# Names. The library named_addresses.c, which is loaded before the program, has it find the addresses of `named` in a file.

@pytest.fixture
def named(folder):
    """Says what the addresses of `named` are from now on, and gives what has the program look for them there."""
    if not shutil.which("cc"):
        pytest.skip("there is no C compiler")
    library, file = f"{folder}/named_addresses.so", Path(folder, "addresses")
    subprocess.run(["cc", "-O2", "-shared", "-fPIC", "-o", library, f"{Path(__file__).parent}/support/named_addresses.c"], check=True)

    def say(*addresses):
        new = file.with_suffix(".new")
        new.write_text("\n".join(addresses), encoding="utf-8")
        new.rename(file)
        return "env", f"LD_PRELOAD={library}", f"ADDRESSES={file}"
    return say


@pytest.fixture
def addresses():
    """Three addresses, at the last of which somebody listens, and the port of all. Nobody else can listen there as long as they are bound."""
    with contextlib.ExitStack() as opened:
        sockets = [opened.enter_context(socket.socket()) for _ in range(3)]
        port = 0
        for last, one in enumerate(sockets, 1):
            one.bind((f"127.0.0.{last}", port))
            port = one.getsockname()[1]
        sockets[-1].listen(64)
        yield [one.getsockname()[0] for one in sockets], port


@pytest.mark.preload
@pytest.mark.parametrize("places, expected", [
    pytest.param(places, expected, id="-".join(map(str, places)) or "none") for places, expected in [
        ([2], "pass"), ([2, 0], "pass"), ([0, 2], "pass"), ([0, 1, 2], "pass"), ([0], "fail: refused"), ([0, 1], "fail: refused"),
        ([], "fail: no address")]])
def test_the_addresses_of_a_name_are_tried_one_after_the_other_until_one_takes_the_connection(server, named, addresses, places, expected):
    there, port = addresses
    ran = server.program.run("observe", "--control", server.control, "--once", "--every", "6", "--timeout", "5", f"good=tcp://named:{port}",
                             before=named(*(there[place] for place in places)))
    assert (ran.stdout, ran.returncode) == (f"good {expected}\n", 0 if expected == "pass" else 3)


@pytest.mark.preload
def test_a_name_is_looked_up_anew_for_each_look(server, named, addresses):
    (nobody, _, somebody), port = addresses
    before = named(somebody)
    with observing(server, "--every", "0.3", "--timeout", "0.2", f"good=tcp://named:{port}", before=before):
        until(lambda: status(server, "good"), "serving")
        named(nobody)
        until(lambda: status(server, "good"), "not serving")
        named(somebody)
        until(lambda: status(server, "good"), "serving")


# What each answer is, also where it breaks off: then the target has closed.

PASS, CLOSED, MALFORMED, TOO_LONG = "pass", "fail: closed before its answer", "fail: malformed answer", "fail: too long an answer"
SERVES, SERVES_NOT, NOT_FOUND = message(SERVING) + OK_TRAILERS, message(NOT_SERVING) + OK_TRAILERS, trailers("grpc-status:5")
ANSWERS = [
    ("http", b"HTTP/1.1 200 OK\r\n", PASS), ("http", b"HTTP/1.0 204\r\nx: y\r\n", PASS), ("http", b"HTTP/1.1 302 Found\n", PASS),
    ("http", b"HTTP/1.1 399 \r\n", PASS), ("http", b"HTTP/1.1 400 No\r\n", "fail: status 400"), ("http", b"HTTP/1.1 500 No\r\n", "fail: status 500"),
    ("http", b"HTTP/1.1 199 No\r\n", "fail: status 199"),
    *(("http", line, MALFORMED) for line in (b"HTTP/2.0 200 OK\r\n", b"HTTP/1.1 20\r\n", b"SSH-2.0-OpenSSH\r\n", b"\r\nHTTP/1.1 200 OK\r\n")),
    ("grpc-web", HEAD % 27 + SERVES, PASS), ("grpc-web", HEAD % 27 + SERVES_NOT, "fail: not_serving"),
    ("grpc-web", HEAD % 20 + NOT_FOUND, "fail: gRPC code 5"), ("grpc-web", b"HTTP/1.1 503 No\r\n\r\n", "fail: status 503"),
    ("grpc-web", b"SSH-2.0-OpenSSH\r\n\r\n", MALFORMED),
    # a frame with the flag 194
    ("grpc-web", HEAD % 27 + message(SERVING) + b"\xc2\x80", MALFORMED),
    # answers that are cut
    *(("http", cut, CLOSED) for cut in (b"", b"HTTP/1.1 20", b"HTTP/1.1 200 OK\r")),
    *(("grpc-web", cut, CLOSED) for cut in (
        b"", b"HTTP/1.1 200 OK\r\n", HEAD % 27, HEAD % 27 + message(SERVING), HEAD % 27 + SERVES_NOT[:-1])),
    # up to 8,192 bytes
    ("http", b"a" * 8_191, CLOSED), ("grpc-web", b"a" * 8_191, CLOSED), ("http", b"a" * 8_192, TOO_LONG),
    ("grpc-web", HEAD % 20_000 + b"\0" + (19_000).to_bytes(4, "big") + b"a" * 8_192, TOO_LONG),
]


@pytest.mark.parametrize("kind, came, expected", [
    pytest.param(*row, id=f"{row[0]} {shown(row[1].replace(HEAD % 27, b'(27) ').replace(HEAD % 20, b'(20) '))}"[:60]) for row in ANSWERS])
def test_an_answer_is_told_as_what_it_is(server, target, kind, came, expected):
    printed, _, code = observe(server, "--once", "--every", "6", "--timeout", "5", f"good={kind}://127.0.0.1:{target(answers(came)).port}/")
    assert (printed, code) == (f"good {expected}\n", 0 if expected == PASS else 3)


def test_as_many_targets_as_there_are_kinds_of_answers_have_a_line_each_in_their_order(server):
    with targets_of(*(answers(came) for _, came, _ in ANSWERS)) as targets:
        printed, _, code = observe(server, "--once", "--every", "6", "--timeout", "5",
                                   *(f"good={kind}://127.0.0.1:{target.port}/" for (kind, _, _), target in zip(ANSWERS, targets)))
    assert (printed.splitlines(), code) == ([f"good {expected}" for _, _, expected in ANSWERS], 3)


# What is said to a target, byte by byte, where its URL says: to one of `tcp` nothing.

def asking(server, listener, target, answer):
    """What one look at this target prints, and all that it says to a server there that answers so, if anything is asked."""
    said = []

    def serve():
        client, _ = listener.accept()
        client.settimeout(10)
        asked = b""
        with client, contextlib.suppress(OSError):
            while answer and not is_whole(asked) and (part := client.recv(4096)):
                asked += part
            client.sendall(answer)
            while part := client.recv(4096):
                asked += part
        said.append(asked)

    thread = threading.Thread(target=serve, daemon=True)
    thread.start()
    printed, _, _ = observe(server, "--once", "--every", "6", "--timeout", "5", target)
    thread.join(10)
    return printed, said


def get(path):
    return f"GET {path} HTTP/1.1\r\nhost: AUTHORITY\r\nuser-agent: healthd\r\nconnection: close\r\n\r\n".encode()


def check(name):
    said = b"\x0a" + bytes([len(name)]) + name if name else b""
    return (b"POST /grpc.health.v1.Health/Check HTTP/1.1\r\nhost: localhost\r\ncontent-type: application/grpc-web+proto\r\nx-grpc-web: 1\r\n"
            b"content-length: %d\r\n\r\n" % (5 + len(said))) + b"\0" + len(said).to_bytes(4, "big") + said


@pytest.mark.parametrize("kind, host, path, answer, said", rows([
    ("tcp", "127.0.0.1", "", b"", b""), ("tcp", "[::1]", "", b"", b""), ("http", "127.0.0.1", "", OK, get("/")),
    ("http", "localhost", "/a//b", OK, get("/a//b")), ("http", "[::1]", "/a?b=c", OK, get("/a?b=c")),
    ("grpc-web", "127.0.0.1", "/ab", HEAD % 27 + SERVES, check(b"ab")), ("grpc-web", "localhost", "/api", HEAD % 27 + SERVES, check(b"api")),
    ("grpc-web", "[::1]", "/", HEAD % 27 + SERVES, check(b"")), ("grpc-web", "127.0.0.1", "", HEAD % 27 + SERVES, check(b"")),
], lambda kind, host, path, *_: f"{kind}://{host}{path}"))
def test_a_target_is_told_this_and_no_more(server, kind, host, path, answer, said):
    is_6 = host == "[::1]"
    with socket.create_server(("::1" if is_6 else "127.0.0.1", 0), family=socket.AF_INET6 if is_6 else socket.AF_INET) as listener:
        authority = f"{host}:{listener.getsockname()[1]}"
        found = asking(server, listener, f"good={kind}://{authority}{path}", answer)
    assert found == ("good pass\n", [said.replace(b"AUTHORITY", authority.encode())])


@pytest.mark.root
def test_the_port_of_http_is_80_where_none_is_written(server):
    with socket.create_server(("127.0.0.80", 80)) as listener:
        found = asking(server, listener, "good=http://127.0.0.80/x", OK)
    assert found == ("good pass\n", [get("/x").replace(b"AUTHORITY", b"127.0.0.80")])


# A place that refuses some reports and leaves.

def test_a_refusal_is_said_once_while_it_lasts_and_so_is_that_the_place_is_lost(server, good, folder):
    place, heard = f"{folder}/refusing", []
    with socket.socket(socket.AF_UNIX) as refusing:
        refusing.bind(place)
        refusing.listen()

        def refuse():
            client, _ = refusing.accept()
            refusing.close()
            with client, client.makefile("rb") as lines:
                for answer in (b"done\n", b"missing\n", b"missing\n", b"done\n", b"missing\n"):
                    heard.append(lines.readline())
                    client.sendall(answer)

        thread = threading.Thread(target=refuse, daemon=True)
        thread.start()
        with observing(server, "--every", "0.5", "--timeout", "0.45", f"good=tcp://127.0.0.1:{good.port}", place=place,
                       stderr=subprocess.PIPE) as process:
            thread.join(10)
            time.sleep(2.5)  # it looks again and again, and says nothing more
            process.kill()
            said = process.communicate(timeout=5)[1].splitlines()
    assert heard == [b"pass good\n"] * 5
    assert said[:2] == [f"healthd: {place} answered missing to reports of good"] * 2
    assert len(said) == 3 and said[2].startswith(f"healthd: {place}: ")


def test_a_place_that_is_lost_is_tried_again_a_second_later_however_many_reports_come(server, good, folder):
    place, count = f"{folder}/lost", 0
    with socket.socket(socket.AF_UNIX) as losing:
        losing.bind(place)
        losing.listen(64)
        losing.setblocking(False)
        begins = time.monotonic()
        with observing(server, "--every", "0.1", "--timeout", "0.09", f"good=tcp://127.0.0.1:{good.port}", place=place):
            while len(good.starts) < LOOKS or count < 2:
                with contextlib.suppress(BlockingIOError):
                    losing.accept()[0].close()
                    count += 1
                time.sleep(0.001)
        seconds = time.monotonic() - begins
    assert count <= 1 + seconds, f"{count} connections in {seconds:.1f} s of {LOOKS} looks"


# Command lines.

@pytest.mark.parametrize("text", [
    "db=tcp://localhost:5432", "-=tcp://10.0.0.1:1", "a.b=tcp://[::1]:65535", "db=tcp://h:1", "a=http://h", "web=http://web-1.example",
    "web=http://[::1]/a?b=c", "web=http://w:8080/a//b", "far=grpc-web://h:50052/api", "a=grpc-web://H_2:8/ab"])
def test_a_target_is_read_where_the_word_after_it_is_what_is_refused(program, folder, text):
    ran = program.run("observe", "--control", f"{folder}/nobody", "--", text, "web")
    assert (ran.stdout, ran.returncode) == ("", 2)
    assert ran.stderr.startswith("error: invalid value 'web' for '<TARGET>...': no URL, expected ")


@pytest.mark.parametrize("words, expected", rows([
    (["--timeout", "5", "a=tcp://h:1"], "not below"), (["a=tcp://h:1/x"], "a path"), (["a=udp://h:1"], "another scheme"), (["a"], "no URL"),
    (["a=tcp://h"], "no port"), ([], "TARGET")], command_line))
def test_a_command_line_is_refused(program, folder, words, expected):
    ran = program.run("observe", "--control", f"{folder}/nobody", *words)
    assert ran.returncode == 2 and expected in ran.stderr


MISTAKES = [
    ("", "no URL"), ("tcp://localhost:1", "no URL"), ("=tcp://localhost:1", "no name"),
    ("a b=tcp://localhost:1", "a space or a control character in the name"),
    *((text, "another scheme") for text in ("db=localhost:5432", "db=https://localhost", "db=tcp:/localhost:1", "db=TCP://localhost:1")),
    ("web=http://h/a b", "a character that a URL has not"), ("web=http://h/a#b", "a character that a URL has not"),
    ("web=http://h/\u00fc", "a character that a URL has not"), ("db=tcp://h:1/", "a path"),
    *((text, "no port") for text in ("db=tcp://h", "db=tcp://h:", "far=grpc-web://h/api")), ("db=tcp://h:0", "no such port"),
    ("db=tcp://h:65536", "no such port"), ("db=tcp://:1", "no host"), ("db=tcp://u@h:1", "no such host"), ("db=tcp://::1:1", "no such host"),
]


@pytest.mark.parametrize("text, mistake", rows(MISTAKES, lambda text, _: text))
def test_a_target_is_refused_by_its_mistake(program, folder, text, mistake):
    ran = program.run("observe", "--control", f"{folder}/nobody", text)
    assert (ran.stdout, ran.returncode) == ("", 2)
    assert ran.stderr.startswith(f"error: invalid value '{text}' for '<TARGET>...': {mistake}, expected ")
