"""HAProxy with web servers behind it, and clients that send requests to it without a pause."""
import csv
import http.client
import http.server
import os
import shutil
import socket
import subprocess
import threading
import time

import pytest

from support.serving import free_port

# It is in /usr/sbin, which only root has on its path.
HAPROXY = shutil.which("haproxy", path=f"{os.environ['PATH']}:/usr/sbin:/sbin")
wants_haproxy = pytest.mark.skipif(HAPROXY is None, reason="there is no HAProxy")


class Threads(http.server.ThreadingHTTPServer):
    """Its threads end before it is closed: one that still runs when Python ends may break its end. Many clients may wait to be taken, as
    those of a balancer's checks do where this process has had no turn for a while."""

    daemon_threads = False
    request_queue_size = 128


class Web:
    """A web server that answers each request with its name. It may be closed and opened again at its address."""

    def __init__(self, name, host):
        class Handler(http.server.BaseHTTPRequestHandler):
            def do_GET(self):
                self.wfile.write(f"HTTP/1.0 200 OK\r\ncontent-length: {len(name)}\r\n\r\n{name}".encode())

            def log_message(self, *_):
                pass

        self.handler, self.host, self.port = Handler, host, free_port()
        self.open()

    def open(self):
        self.server = Threads((self.host, self.port), self.handler)
        threading.Thread(target=self.server.serve_forever, args=(0.05,), daemon=True).start()

    def close(self):
        self.server.shutdown()
        self.server.server_close()


class Load:
    """Two clients that send one request after the other through HAProxy, without a pause."""

    def __init__(self, port):
        self.port, self.answers, self.going = port, [], True
        self.clients = [threading.Thread(target=self.run, daemon=True) for _ in range(2)]

    def __enter__(self):
        for client in self.clients:
            client.start()
        return self

    def __exit__(self, *_):
        self.going = False
        for client in self.clients:
            client.join()

    def run(self):
        while self.going:
            begins = time.monotonic()
            try:
                connection = http.client.HTTPConnection("127.0.0.1", self.port, timeout=60)
                connection.request("GET", "/")
                response = connection.getresponse()
                answer = response.read().decode() if response.status == 200 else f"HTTP {response.status}"
                connection.close()
            except (OSError, http.client.HTTPException) as error:
                answer = repr(error)
            self.answers.append((begins, answer))

    def since(self, begins):
        """The answers to the requests that began at that time or later."""
        return [answer for began, answer in list(self.answers) if began >= begins]


class Balancer:
    """An HAProxy with a copy of this configuration, in which each of the pairs has its second text in place of the first."""

    def __init__(self, configuration, folder, pairs):
        text = configuration.read_text(encoding="utf-8")
        self.port, self.socket = free_port(), f"{folder}/haproxy.sock"
        for there, here in (("/run/haproxy/admin.sock", self.socket), ("bind :80\n", f"bind 127.0.0.1:{self.port}\n"), *pairs):
            assert there in text, f"{configuration} does not have {there!r}"
            text = text.replace(there, here)
        with open(f"{folder}/haproxy.cfg", "w", encoding="utf-8") as copy:
            copy.write(text)
        # It sets itself up for as many connections as it may open, which may be a million.
        self.process = subprocess.Popen([HAPROXY, "-db", "-n", "200", "-f", f"{folder}/haproxy.cfg"], stdin=subprocess.DEVNULL,
                                        stdout=subprocess.DEVNULL)

    def is_open(self):
        """Whether its stats socket takes connections. The file is there a moment before."""
        assert self.process.poll() is None, f"HAProxy has ended with status {self.process.returncode}"
        with socket.socket(socket.AF_UNIX) as admin:
            return admin.connect_ex(self.socket) == 0

    def stats(self, server):
        """What it says of a server at its stats socket."""
        with socket.socket(socket.AF_UNIX) as admin:
            admin.connect(self.socket)
            admin.sendall(b"show stat web 4 -1\n")
            said = b"".join(iter(lambda: admin.recv(65536), b"")).decode()
        return {row["svname"]: row for row in csv.DictReader(said.removeprefix("# ").splitlines())}[server]

    def state(self, server):
        """A server's status, and how its last check ended, which has a star before it while the next one runs."""
        row = self.stats(server)
        return row["status"], row["check_status"].removeprefix("* ")

    def close(self):
        self.process.terminate()
        self.process.wait(20)
