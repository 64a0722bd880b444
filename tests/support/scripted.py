"""Servers of a test's own: each has one client, hears what that sends, and says what it is told to."""
import contextlib
import socket
import threading

from support.wire import rest_of


class Scripted:
    """A server of one client: `serve` has it and its client. What it has heard is there once it has ended."""

    def __init__(self, listener, serve):
        self.listener, self.heard = listener, b""
        self.thread = threading.Thread(target=self.run, args=(serve,), daemon=True)
        self.thread.start()

    @property
    def port(self):
        return self.listener.getsockname()[1]

    @property
    def place(self):
        return self.listener.getsockname()

    def run(self, serve):
        try:
            client, _ = self.listener.accept()
            with client:
                serve(self, client)
        except OSError:
            pass

    def ended(self):
        """What it has heard, once its client has left or it has left its client."""
        self.thread.join(20)
        assert not self.thread.is_alive(), "the server of this test goes on"
        return self.heard

    def close(self):
        """Ends it where nobody has come too."""
        with contextlib.suppress(OSError):
            self.listener.shutdown(socket.SHUT_RDWR)
        self.thread.join(20)
        self.listener.close()


@contextlib.contextmanager
def at_port(serve):
    """Such a server at a port that the system picks."""
    with contextlib.closing(Scripted(socket.create_server(("127.0.0.1", 0)), serve)) as scripted:
        yield scripted


@contextlib.contextmanager
def at_path(path, serve):
    """Such a server at a path, whose file stays."""
    listener = socket.socket(socket.AF_UNIX)
    listener.bind(path)
    listener.listen()
    with contextlib.closing(Scripted(listener, serve)) as scripted:
        yield scripted


def answering(answer):
    """Reads one request, which ends with its body, and answers it."""
    def serve(scripted, client):
        while True:
            front, _, body = scripted.heard.partition(b"\r\n\r\n")
            length = [int(line.split(b":")[1]) for line in front.lower().split(b"\r\n") if line.startswith(b"content-length:")]
            if length and len(body) >= length[0]:
                break
            part = client.recv(65536)
            if not part:
                return
            scripted.heard += part
        client.sendall(answer)
    return serve


def saying(answers):
    """Says all answers at once, and hears the lines to their end."""
    def serve(scripted, client):
        client.sendall(answers)
        client.shutdown(socket.SHUT_WR)
        scripted.heard = rest_of(client)
    return serve


def leaving(_, client):
    """Leaves with a line that it has not read."""
    client.recv(1, socket.MSG_PEEK)
