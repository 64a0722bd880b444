"""Calls by curl, and what it gets."""
import shutil
import subprocess

import pytest

from support.wire import SERVICE, request, status

wants_curl = pytest.mark.skipif(not shutil.which("curl"), reason="there is no curl")


def call(port, method, *options):
    """The command, which reads the frame of a request. What hangs ends after a minute."""
    return ["curl", "--silent", "--max-time", "60", "--data-binary", "@-", "-H", "content-type: application/grpc-web+proto", *options,
            f"http://127.0.0.1:{port}{SERVICE}/{method}"]


def checked(port, name, *options):
    """The status of HTTP and the body that it gets for a Check."""
    done = subprocess.run(call(port, "Check", "--write-out", "%{stderr}%{http_code}", *options), input=request(name), capture_output=True)
    return int(done.stderr), done.stdout


class Watch:
    """One whose messages curl passes on as they come."""

    def __init__(self, port, name):
        self.process = subprocess.Popen(call(port, "Watch", "--no-buffer"), stdin=subprocess.PIPE, stdout=subprocess.PIPE)
        self.process.stdin.write(request(name))
        self.process.stdin.close()

    def is_told(self, *numbers):
        """It is told these statuses next."""
        messages = [*map(status, numbers)]
        assert [self.process.stdout.read(len(message)) for message in messages] == messages

    def rest(self):
        """What else comes until it has ended, and curl's exit status."""
        return self.process.stdout.read(), self.process.wait(20)

    def close(self):
        self.process.kill()
        self.process.wait(20)
        self.process.stdout.close()
