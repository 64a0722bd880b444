"""What is asked at a place of `--plain`, its answers apart from the order of their header lines, and the numbers of /metrics."""
import socket

from prometheus_client.parser import text_string_to_metric_families

from support.wire import connect, rest_of

TEXT = ("content-type: text/plain; charset=utf-8", "cache-control: no-store")
# The numbers of /metrics that each service has.
SERVICES = ("service_status", "last_report_timestamp_seconds", "expected_seconds")


def sent(port, request, timeout=10):
    """All that is answered to these bytes."""
    with connect(port, timeout) as client:
        client.sendall(request if isinstance(request, bytes) else request.encode())
        return rest_of(client)


def sent_and_ended(port, request):
    """All that is answered to a client that sends these bytes and closes its side."""
    with connect(port) as client:
        client.sendall(request)
        client.shutdown(socket.SHUT_WR)
        return rest_of(client)


def asking(target, method="GET", version="1.1", more=""):
    return f"{method} {target} HTTP/{version}\r\nhost: localhost\r\n{more}\r\n"


def parted(answer):
    """A status line, the header lines in an order of their own, and the body."""
    told, _, body = answer.partition(b"\r\n\r\n")
    line, *fields = told.decode("latin-1").split("\r\n")
    return line, sorted(fields), body


def asked(port, request):
    """The answer to a request, in its parts."""
    return parted(sent(port, request))


def answer(line, *fields, body="", sends=True):
    """The parts of an answer. That to a HEAD sends no body, and tells its length."""
    body = body.encode()
    return f"HTTP/1.1 {line}", sorted(["connection: close", *fields, f"content-length: {len(body)}"]), body if sends else b""


def status(expected, sends=True):
    """The answer for a service with this status, or for a name that is not found."""
    if expected in (None, "absent"):
        return answer("404 Not Found", *TEXT, body="not found\n", sends=sends)
    return answer("200 OK" if expected == "serving" else "503 Service Unavailable", *TEXT, body=f"{expected}\n", sends=sends)


def not_allowed(allowed, sends=True):
    return answer("405 Method Not Allowed", f"allow: {allowed}", *TEXT, body="method not allowed\n", sends=sends)


def metrics(port):
    """The text of /metrics, whose head is always the same."""
    line, fields, body = asked(port, asking("/metrics"))
    kind = "content-type: text/plain; version=0.0.4; charset=utf-8"
    assert (line, fields, body) == answer("200 OK", kind, "cache-control: no-store", body=body.decode())
    return body.decode()


class Numbers:
    """The numbers of /metrics, as Prometheus' parser reads them: of services by metric and the service's name, of causes, and the others."""

    def __init__(self, port):
        self.of, self.causes, self.others = {name: {} for name in SERVICES}, {}, {}
        for family in text_string_to_metric_families(metrics(port)):
            for sample in family.samples:
                name = sample.name.removeprefix("healthd_")
                into, key = self.others, name
                if "service" in sample.labels:
                    into, key = self.of[name], sample.labels["service"]
                elif "cause" in sample.labels:
                    into, key = self.causes, sample.labels["cause"]
                assert key not in into, f"{sample.name} {key} is there twice"
                into[key] = sample.value
