"""The messages of health.proto in the frames of gRPC-Web, as bytes of a request and of an answer, and what is sent and read of them."""
import socket

SERVICE = "/grpc.health.v1.Health"
UNKNOWN, SERVING, NOT_SERVING, SERVICE_UNKNOWN = range(4)
ENDED = b"grpc-status:14"


def frame(message, flags=0):
    return bytes([flags]) + len(message).to_bytes(4, "big") + message


def request(name):
    """The frame of a HealthCheckRequest for the service of this name."""
    return frame(b"\x0a" + bytes([len(name)]) + name.encode() if name else b"")


def status(number):
    """The frame of a HealthCheckResponse."""
    return frame(b"\x08" + bytes([number]))


def trailers(*lines):
    """The frame of an answer's end."""
    return frame("".join(f"{line}\r\n" for line in lines).encode(), 0x80)


OK = trailers("grpc-status:0")


def chunk(content):
    return f"{len(content):x}\r\n".encode() + content + b"\r\n"


# The head of a Watch's answer.
WATCH_HEAD = b"HTTP/1.1 200 OK\r\nconnection: close\r\ncontent-type: application/grpc-web+proto\r\ntransfer-encoding: chunked\r\n\r\n"

# The chunk of a message of a Watch, up to the number of its status, and the chunks that end a Watch.
MESSAGE = chunk(status(0))[:-3]
WATCH_END = chunk(trailers("grpc-status:14", "grpc-message:watch ended")) + b"0\r\n\r\n"


def head(method, body, *lines):
    told = (f"POST {SERVICE}/{method} HTTP/1.1", "host: localhost", "content-type: application/grpc-web+proto",
            f"content-length: {len(body)}", *lines)
    return "".join(f"{line}\r\n" for line in told).encode() + b"\r\n"


def call(method, name):
    """A whole request."""
    body = request(name)
    return head(method, body) + body


def get(path, *lines):
    return "".join(f"{line}\r\n" for line in (f"GET {path} HTTP/1.1", "host: localhost", *lines)).encode() + b"\r\n"


def connect(port, timeout=10):
    return socket.create_connection(("127.0.0.1", port), timeout)


def rest_of(client):
    """All that comes until the server closes the connection, by a reset where it has left bytes unread."""
    read = b""
    try:
        while part := client.recv(65536):
            read += part
    except ConnectionResetError:
        pass
    return read


def all_of(client):
    """All that comes until the server closes the connection, where a reset is an error."""
    read = b""
    while part := client.recv(65536):
        read += part
    return read


def exchange(port, text):
    """All that is answered to these bytes, until the server closes the connection."""
    with connect(port) as client:
        client.sendall(text)
        return rest_of(client)
