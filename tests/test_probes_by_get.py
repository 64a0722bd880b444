"""Fifty probes that ask the plain place at once, as those of Kubernetes do, follow what is told, and a server that is frozen or killed."""
import contextlib
import socket
import threading
import time

import pytest

from support.process import frozen
from support.waiting import until

pytestmark = pytest.mark.timeout(300)  # fifty clients of one process take long where memory is checked

SCRIPT = "catalogue web1 web2 -\nregister web1 manual\nregister web2 manual\nregister - depends web1 web2\n"
WEB1, WEB2, WHOLE = "/status/web1", "/status/web2", "/healthz"
PROBES = [WEB1] * 20 + [WEB2] * 20 + [WHOLE] * 10
FAILURES, PERIOD = 3, 0.1
# How many seconds an answer may take. A kubelet waits for one, but these are threads of one process, which wait for their turn too.
KUBELET, LIMIT = 1, 10
PATIENCE = 100


class Probe:
    """An httpGet probe as a kubelet makes it: ready once it succeeds, and not ready after so many failures in a row."""

    def __init__(self, port, target):
        self.port, self.target, self.limit, self.ready, self.results, self.going = port, target, LIMIT, None, [], True
        self.request = (f"GET {target} HTTP/1.1\r\nHost: 127.0.0.1:{port}\r\nUser-Agent: kube-probe/1.30\r\nAccept: */*\r\n"
                        "Connection: close\r\n\r\n").encode()
        self.thread = threading.Thread(target=self.run, daemon=True)
        self.thread.start()

    def ask(self):
        """Whether the whole answer comes in time, and its number is one from 200 to 399; and what it says."""
        ends, answer = time.monotonic() + self.limit, b""
        try:
            with socket.create_connection(("127.0.0.1", self.port), self.limit) as client:
                client.sendall(self.request)
                while True:
                    client.settimeout(max(0.001, ends - time.monotonic()))
                    if not (part := client.recv(65536)):
                        break
                    answer += part
        except OSError as error:
            return False, repr(error)
        line = answer.split(b"\r\n")[0].split(b" ")
        return line[0] == b"HTTP/1.1" and 200 <= int(line[1]) < 400, answer.partition(b"\r\n\r\n")[2].decode().strip()

    def run(self):
        failures = 0
        while self.going:
            begins = time.monotonic()
            success, told = self.ask()
            failures = 0 if success else failures + 1
            self.ready = success or failures < FAILURES and self.ready
            self.results.append((begins, (success, told)))
            time.sleep(PERIOD)

    def since(self, begins):
        """What came of those that began then or later."""
        return [result for began, result in list(self.results) if began >= begins]


class Probes:
    """All of them."""

    def __init__(self, port):
        self.every = [Probe(port, target) for target in PROBES]

    def ready(self):
        """Whether web1, web2 and the whole server are ready, where all probes of each agree."""
        return [{probe.ready for probe in self.every if probe.target == target} for target in (WEB1, WEB2, WHOLE)]

    def found(self, *targets, since=0):
        """What came of those for these targets that began then or later."""
        return {result for probe in self.every if probe.target in targets for result in probe.since(since)}

    def ask(self, times):
        """From now on each asks so many times, and is answered or not."""
        turned = time.monotonic()
        until(lambda: all(len(probe.since(turned)) >= times for probe in self.every), True, PATIENCE)

    def wait_for(self, seconds):
        """From now on each waits so long for an answer."""
        for probe in self.every:
            probe.limit = seconds
        self.ask(1)

    def close(self):
        for probe in self.every:
            probe.going = False
        for probe in self.every:
            probe.thread.join()


@pytest.fixture
def server(start):
    return start("--plain", "127.0.0.1:0", "--threads", "2", script=SCRIPT)


@pytest.fixture
def probes(server):
    """Probes that have found all ready."""
    with contextlib.closing(Probes(server.plain)) as probes:
        becomes(probes, True, True, True)
        yield probes


def becomes(probes, web1, web2, whole):
    until(probes.ready, [{web1}, {web2}, {whole}], PATIENCE)


def tell(server, *words):
    assert server.tell(*words) == ("done", 0)


def test_each_of_fifty_that_ask_at_once_succeeds_each_time(probes):
    probes.ask(5)
    assert probes.found(WEB1, WEB2, WHOLE) == {(True, "serving")}


def test_what_is_down_and_what_depends_on_it_is_not_ready_until_its_first_success(server, probes):
    tell(server, "down", "web1")
    becomes(probes, False, True, False)
    tell(server, "up", "web1")
    probes.ask(1)
    assert probes.ready() == [{True}, {True}, {True}]


def test_after_a_service_was_set_down_each_answer_says_so_and_another_is_asked_without_a_failure(server, probes):
    tell(server, "down", "web1")
    told = time.monotonic()
    becomes(probes, False, True, False)
    probes.ask(3)
    assert probes.found(WEB1, since=told) == {(False, "not_serving")}
    assert probes.found(WEB2) == {(True, "serving")}


def test_a_frozen_server_is_not_ready_until_it_goes_on(server, probes):
    probes.wait_for(KUBELET)
    with frozen(server.process):
        begins = time.monotonic()
        becomes(probes, False, False, False)
        assert {success for success, _ in probes.found(WEB1, WEB2, WHOLE, since=begins)} == {False}
    probes.wait_for(LIMIT)
    becomes(probes, True, True, True)


def test_what_is_not_registered_is_not_ready(server, probes):
    tell(server, "retire", "web2")
    until(lambda: probes.ready()[1], {False}, PATIENCE)


def test_a_killed_server_is_not_ready(server, probes):
    server.kill()
    becomes(probes, False, False, False)
