"""A `healthd run` that a test starts."""
import os
import re
import signal
import subprocess
import tempfile
import time

from support.session import Session, numbers
from support.watch import Watch
from support.wire import all_of, call, connect

SCRIPT = "catalogue a db -\nregister a manual\nregister db threshold 2\nregister - depends a db\n"
LOGGED = re.compile(r"\d{4}-\d\d-\d\dT[\d:.]+Z ")


class Server:
    """Its files are in a folder of its own within this one. Its control place is one of them, or the place that is given."""

    def __init__(self, program, within, *options, script=SCRIPT, before=(), handed=(), env=None, starts=True, err=None, out=None, control=True,
                 listen="127.0.0.1:0"):
        self.program = program
        self.folder = tempfile.mkdtemp(prefix="", dir=within)
        os.chmod(self.folder, 0o755)
        self.control = f"{self.folder}/control" if control is True else control
        with open(f"{self.folder}/script", "w", encoding="utf-8") as file:
            file.write(script)
        self.err = open(f"{self.folder}/err", "w+", encoding="utf-8")
        command = [*before, str(program), "run", "--listen", listen, *(("--control", self.control) if control else ()),
                   "--script", f"{self.folder}/script", *options]
        if handed:
            # The sockets have to be descriptors from 3 on, and the process has to know its own id.
            moved = " ".join(f"{3 + place}<&{one.fileno()}" for place, one in enumerate(handed))
            command = ["/bin/bash", "-c", f'exec {moved}; export LISTEN_PID=$$ LISTEN_FDS={len(handed)}; exec "$@"', "sh", *command]
        self.process = subprocess.Popen(
            command, stdin=subprocess.DEVNULL, stdout=out or subprocess.PIPE, stderr=self.err if err is None else err, text=True,
            pass_fds=tuple(one.fileno() for one in handed), env={**os.environ, **(env or {})})
        self.has_ended = False
        if not starts:
            return
        has_plain = "--plain" in options or len(handed) > 1
        places = 1 + has_plain + ("--report" in options) + bool(control)
        lines = [self.process.stdout.readline().strip() for _ in range(places)] if out is None else lines_of(out.name, places)
        told = dict(line.partition(" ")[::2] for line in lines)
        host = re.escape(listen.rpartition(":")[0])
        assert re.fullmatch(rf"{host}:\d+", told.get("listening", "")), f"it listens nowhere: {lines}, {self.said()}"
        self.port = port_of(told["listening"])
        self.plain = port_of(told["plain"]) if has_plain else None
        self.report = told.get("report")
        self.control = told.get("control")

    # What it says

    def written(self):
        """The lines of its standard error so far."""
        with open(f"{self.folder}/err", encoding="utf-8") as file:
            return file.readlines()

    def said(self):
        """What it has written to standard error so far, without its log."""
        return "".join(line for line in self.written() if not LOGGED.match(line))

    def log(self):
        """The whole lines of its log so far, without their times."""
        return [LOGGED.sub("", line).removesuffix("\n") for line in self.written() if LOGGED.match(line) and line.endswith("\n")]

    # What it is asked

    def session(self, place=None, timeout=20):
        return Session(place or self.control, timeout)

    def tell(self, *words, place=None, **options):
        """What `healthd tell` prints, and its exit status."""
        ran = self.program.run("tell", "--control", place or self.control, *words, **options)
        return (ran.stdout or ran.stderr).strip(), ran.returncode

    def stats(self):
        return numbers(self.tell("stats")[0])

    def ask(self, *options):
        """What `healthd ask` prints, and its exit status."""
        ran = self.program.run("ask", "--host", "127.0.0.1", "--port", str(self.port), "--timeout", "5", *options)
        return (ran.stdout + ran.stderr).strip(), ran.returncode

    def connect(self, timeout=10):
        return connect(self.port, timeout)

    def check(self, name="a"):
        """A Check, as the bytes of the whole answer. A reset is an error."""
        with self.connect() as client:
            client.sendall(call("Check", name))
            return all_of(client)

    def watch(self, name="a", timeout=20):
        return Watch(self.connect(timeout), name)

    # How it ends

    def end(self):
        """Waits until it has ended: its exit status, and what it has printed since it told its places."""
        self.has_ended = True
        status = self.process.wait(40)
        return status, self.process.stdout.read().strip() if self.process.stdout else ""

    def stop(self):
        """Tells it to stop, and waits until it has ended in good order."""
        assert self.tell("stop") == ("stopping", 0)
        status, printed = self.end()
        assert status == 0 and re.fullmatch(r"(journal \d+)?", printed), (status, printed, self.said())

    def kill(self, number=signal.SIGKILL):
        self.process.send_signal(number)
        return self.end()

    def close(self):
        """Stops it, unless the test has ended it."""
        try:
            if not self.has_ended:
                self.stop()
        finally:
            if self.process.poll() is None:
                self.process.kill()
                self.process.wait(40)
            self.err.close()


def port_of(place):
    return int(place.rpartition(":")[2])


def lines_of(path, count):
    """The first lines of a file that are not of the log, once there are so many."""
    ends = time.monotonic() + 40
    while True:
        with open(path, encoding="utf-8") as file:
            lines = [line.strip() for line in file if line.endswith("\n") and not LOGGED.match(line)]
        if len(lines) >= count or time.monotonic() > ends:
            return lines
        time.sleep(0.02)
