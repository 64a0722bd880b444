"""A session at a control or a report place: a line is asked, and answered."""
import socket


def joined(place, timeout=20):
    """A connection to a place."""
    if not place.startswith("/"):
        host, _, port = place.rpartition(":")
        return socket.create_connection((host.strip("[]"), int(port)), timeout)
    client = socket.socket(socket.AF_UNIX)
    client.settimeout(timeout)
    client.connect(place)
    return client


class Session:
    def __init__(self, place, timeout=20):
        self.client = joined(place, timeout)
        self.answers = self.client.makefile("rb")

    def __enter__(self):
        return self

    def __exit__(self, *_):
        self.close()

    def send(self, text):
        self.client.sendall(text if isinstance(text, bytes) else text.encode())

    def answer(self):
        """The next line that is answered, or nothing where the session has ended."""
        return self.answers.readline().decode().removesuffix("\n")

    def ask(self, line):
        self.send(line if isinstance(line, bytes) else f"{line}\n")
        return self.answer()

    def ask_many(self, line, count):
        """The answers to so many lines that are sent at once. No more may be sent than the sockets hold."""
        self.send(f"{line}\n" * count)
        return [self.answer() for _ in range(count)]

    def say_that_it_is_all(self):
        self.client.shutdown(socket.SHUT_WR)

    def rest(self):
        """All that comes until the server ends the session, by a reset where it has left bytes unread."""
        read = b""
        try:
            while part := self.answers.read1():
                read += part
        except ConnectionResetError:
            pass
        return read

    def close(self):
        self.answers.close()
        self.client.close()


def numbers(answer):
    """The answer to `stats`, by its words."""
    words = answer.split()
    return dict(zip(words[::2], map(int, words[1::2])))
