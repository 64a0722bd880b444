"""What is before a place, and keeps what was sent there on each connection, and what was answered. It may hold some answers, without a word."""
import contextlib
import socket
import threading
import time

PATIENCE = 20


class Relay:
    """It passes nothing on of the answers to requests that have the bytes `holds`."""

    def __init__(self, place):
        self.place, self.carried, self.holds = place, [], None
        self.listener = socket.create_server(("127.0.0.1", 0), backlog=64)
        self.port = self.listener.getsockname()[1]
        threading.Thread(target=self.run, daemon=True).start()

    def run(self):
        with contextlib.suppress(OSError):
            while True:
                client, _ = self.listener.accept()
                threading.Thread(target=self.carry, args=(client,), daemon=True).start()

    def carry(self, client):
        host, port = self.place.split(":")
        kept = {"asked": b"", "answered": b"", "held": False, "ended": False}
        self.carried.append(kept)
        with client, socket.create_connection((host, int(port)), PATIENCE) as server:
            asking = threading.Thread(target=self.pass_on, args=(client, server, kept, "asked"), daemon=True)
            asking.start()
            self.pass_on(server, client, kept, "answered")
            asking.join()
            kept["ended"] = True

    def pass_on(self, one, other, kept, part):
        """Keeps what comes until its end, and passes it and its end on, as long as the other side takes it."""
        with contextlib.suppress(OSError):
            while read := one.recv(65536):
                kept[part] += read
                while part == "answered" and self.holds and self.holds in kept["asked"]:
                    kept["held"] = True
                    time.sleep(0.02)
                with contextlib.suppress(OSError):
                    other.sendall(read)
        with contextlib.suppress(OSError):
            other.shutdown(socket.SHUT_WR)

    def close(self):
        self.holds = None
        with contextlib.suppress(OSError):
            self.listener.shutdown(socket.SHUT_RDWR)
        self.listener.close()
