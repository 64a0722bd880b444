"""A `healthd serve` that a test starts: so many calls by so many workers, beside the orders of its script."""
import random
import socket
import subprocess

from support.watch import Watch
from support.wire import connect


def free_port():
    """A port that is free, below those that the system gives to clients, so that it stays so, and none that Chromium refuses, as 10080."""
    while True:
        port = random.randrange(11000, 32768)
        with socket.socket() as listener:
            try:
                listener.bind(("127.0.0.1", port))
            except OSError:
                continue
        return port


class Serving:
    """One that has read its script. It has told where it listens, or has ended."""

    def __init__(self, program, script, workers, calls, port=None, env=None):
        self.program = program
        self.port = port or free_port()
        self.process = subprocess.Popen([str(program), "serve", "--port", str(self.port), "--workers", str(workers), "--calls", str(calls)],
                                        stdin=subprocess.PIPE, stdout=subprocess.PIPE, stderr=subprocess.PIPE, text=True,
                                        env={**program.environment, **(env or {})})
        try:
            self.process.stdin.write(script)
            self.process.stdin.close()
        except BrokenPipeError:
            pass  # it ends by a fault before it has read all
        self.first = self.process.stdout.readline().strip()

    def connect(self):
        return connect(self.port, 20)

    def watch(self, name="a"):
        return Watch(self.connect(), name)

    def ask(self, *options):
        """The lines that `healthd ask` prints."""
        ran = self.program.run("ask", "--port", str(self.port), *options)
        return (ran.stdout + ran.stderr).splitlines()

    def end(self):
        """Waits until it has ended: its exit status, and what it has printed after its first line and to standard error."""
        status = self.process.wait(40)
        return status, self.process.stdout.read().splitlines(), self.process.stderr.read()

    def close(self):
        """Ends it, where a test has failed before it has had its calls."""
        if self.process.poll() is None:
            self.process.kill()
            self.process.wait(40)
        self.process.stdout.close()
        self.process.stderr.close()
