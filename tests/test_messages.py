"""The server's answers are read with other people's code: HTTP by h11, messages by Google's Protocol Buffers."""
import pytest

h11 = pytest.importorskip("h11")
pytest.importorskip("google.protobuf")
from google.protobuf import descriptor_pb2, descriptor_pool, message_factory  # noqa: E402

# The whole server, two web servers, and a job that nobody has checked yet.
SCRIPT = "catalogue web1 web2 job -\nregister - manual\nregister web1 manual\nregister web2 manual\nregister job threshold 2 1 unknown\n"
OK = {"grpc-status": "0"}
ENDED = {"grpc-status": "14", "grpc-message": "watch ended"}

# health.proto of gRPC, as the descriptor that protoc would make of it.
FILE = descriptor_pb2.FileDescriptorProto(name="health.proto", package="grpc.health.v1", syntax="proto3")
FIELD = descriptor_pb2.FieldDescriptorProto
FILE.message_type.add(name="HealthCheckRequest").field.add(
    name="service", number=1, label=FIELD.LABEL_OPTIONAL, type=FIELD.TYPE_STRING)
RESPONSE = FILE.message_type.add(name="HealthCheckResponse")
STATUS = RESPONSE.enum_type.add(name="ServingStatus")
for number, value in enumerate(["UNKNOWN", "SERVING", "NOT_SERVING", "SERVICE_UNKNOWN"]):
    STATUS.value.add(name=value, number=number)
RESPONSE.field.add(name="status", number=1, label=FIELD.LABEL_OPTIONAL, type=FIELD.TYPE_ENUM,
                   type_name=".grpc.health.v1.HealthCheckResponse.ServingStatus")
POOL = descriptor_pool.DescriptorPool()
POOL.Add(FILE)


def message_class(name):
    descriptor = POOL.FindMessageTypeByName("grpc.health.v1." + name)
    if hasattr(message_factory, "GetMessageClass"):
        return message_factory.GetMessageClass(descriptor)
    return message_factory.MessageFactory(POOL).GetPrototype(descriptor)


Request = message_class("HealthCheckRequest")
Response = message_class("HealthCheckResponse")


class Call:
    """One call, as a client that knows HTTP/1.1 from h11 alone."""

    def __init__(self, server, method, service):
        message = Request(service=service).SerializeToString()
        body = b"\0" + len(message).to_bytes(4, "big") + message
        self.http = h11.Connection(h11.CLIENT)
        self.socket = server.connect()
        for event in (
            h11.Request(method="POST", target="/grpc.health.v1.Health/" + method, headers=[
                ("host", "localhost"), ("content-type", "application/grpc-web+proto"),
                ("content-length", str(len(body)))]),
            h11.Data(data=body),
            h11.EndOfMessage(),
        ):
            self.socket.sendall(self.http.send(event))
        self.response = self.event()
        self.held = b""

    def __enter__(self):
        return self

    def __exit__(self, *_):
        self.socket.close()

    def event(self):
        while (event := self.http.next_event()) is h11.NEED_DATA:
            self.http.receive_data(self.socket.recv(65536))
        return event

    def frame(self):
        """The next frame, as its flag and its content; nothing at the end of the body."""
        while len(self.held) < 5 or len(self.held) < 5 + int.from_bytes(self.held[1:5], "big"):
            event = self.event()
            if isinstance(event, h11.EndOfMessage):
                assert self.held == b"", "the body ends within a frame"
                return None
            self.held += event.data
        length = int.from_bytes(self.held[1:5], "big")
        flag, content, self.held = self.held[0], self.held[5:5 + length], self.held[5 + length:]
        return flag, content

    def told(self):
        """What the next frame says: the name of a status, or the trailers."""
        frame = self.frame()
        if frame is None:
            return None
        flag, content = frame
        if flag == 0:
            return STATUS.value[Response.FromString(content).status].name
        assert flag == 0x80, f"a frame of flag {flag}"
        return dict(line.split(":", 1) for line in content.decode("ascii").split("\r\n") if line)

    def all_told(self):
        return list(iter(self.told, None))


def check(server, service):
    with Call(server, "Check", service) as call:
        return call.all_told()


@pytest.fixture
def server(start):
    return start("--threads", "2", script=SCRIPT)


def test_h11_reads_the_head(server):
    with Call(server, "Check", "web1") as call:
        headers = dict(call.response.headers)
        assert (call.response.status_code, headers[b"content-type"], headers[b"connection"]) == (200, b"application/grpc-web+proto", b"close")


def test_protobuf_reads_serving(server):
    assert check(server, "web1") == ["SERVING", OK]


def test_protobuf_reads_not_serving(server):
    assert server.tell("down", "web1") == ("done", 0)
    assert check(server, "web1") == ["NOT_SERVING", OK]


def test_protobuf_reads_unknown(server):
    assert check(server, "job") == ["UNKNOWN", OK]


def test_h11_reads_an_unknown_service(server):
    assert check(server, "nobody") == [{"grpc-status": "5", "grpc-message": "unknown service"}]


def test_protobuf_reads_a_watch_message_by_message_and_h11_reads_it_to_its_end(server):
    """A Watch of a service that is not registered says so, and goes on when it is. It ends with the server, which ends well."""
    assert server.tell("retire", "web2") == ("done", 0)
    with Call(server, "Watch", "web2") as watch:
        story = [watch.told()]
        for line in ("register web2 manual", "down web2", "up web2", "retire web2"):
            assert server.tell(*line.split()) == ("done", 0)
            story.append(watch.told())
        assert story == ["SERVICE_UNKNOWN", "SERVING", "NOT_SERVING", "SERVING", "SERVICE_UNKNOWN"]
        assert server.tell("stop") == ("stopping", 0)
        assert watch.all_told() == [ENDED]
        status, printed = server.end()
        assert (status, printed.rstrip("0123456789")) == (0, "journal ")
