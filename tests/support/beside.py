"""What is beside a server that is killed: sessions that change services, one that reports, Watches and Checks. One thread has them all."""
import random
import re
import selectors
import time

from support.judge import Change, Client, Told
from support.session import joined
from support.wire import all_of, call, connect

# Each of four sessions has a service of each kind, and one that comes and goes; who reports has `r`. No session has the others.
OWN = [[f"s{number}{kind}" for kind in "abc"] for number in range(4)]
NAMES = [*(name for own in OWN for name in own), "r", "w", "-"]
SETUP = [*(line for a, b, _ in OWN for line in (f"register {a} manual", f"register {b} threshold 2 2")),
         "register s1c threshold 1 2 unknown", "register r threshold 2 1", "register w depends s2a s3b", "register - depends s0a s1b r w"]
COMES_AND_GOES = ("register {} manual", "register {} threshold 1 2 unknown", "retire {}", "up {}", "down {}", "pass {}", "fail {}")
WATCHED = ["s0a", "s1a", "s2b", "s3b", "s0c", "s1c", "r", "w", "-", "-"]
CHECKERS = 3

WIRE = {b"": "unknown", b"\x08\1": "serving", b"\x08\2": "not_serving", b"\x08\3": "absent"}
WORDS = {"serving": "serving", "not serving": "not_serving", "unknown": "unknown", "not found": "absent"}


class Connection:
    """A client's connection. What comes is read when there is something to read."""

    def __init__(self, load, client, place):
        self.load, self.client, self.read = load, client, b""
        self.socket = connect(place) if isinstance(place, int) else joined(place)
        load.selector.register(self.socket, selectors.EVENT_READ, self)

    def send(self, data):
        try:
            self.socket.sendall(data)
        except OSError:
            # The server is gone, as the next read tells.
            pass

    def is_ready(self):
        try:
            part = self.socket.recv(65_536)
        except OSError:
            part = b""
        self.read += part
        if part:
            self.came()
        else:
            self.load.selector.unregister(self.socket)
            self.socket.close()
            self.ended()

    def came(self):
        pass

    def ended(self):
        pass


class Session(Connection):
    """Says a line whenever the one before it is answered."""

    def __init__(self, load, client, place, change):
        super().__init__(load, client, place)
        self.change = change
        self.say()

    def say(self):
        self.line = self.change() if random.random() < 0.8 else question(self.load.entries)
        self.begins = time.monotonic()
        if not is_question(self.line):
            self.client.told.append(Change(self.line, self.begins))
        self.send(self.line.encode() + b"\n")

    def came(self):
        line, end, rest = self.read.partition(b"\n")
        if not end:
            return
        answer, self.read = line.decode(), rest
        if is_question(self.line):
            told = told_by(self.line, answer, self.begins)
            self.client.told.append(told)
            if told.word == "board":
                self.load.entries = told.what >> 32
        else:
            change = self.client.told[-1]
            change.reply, change.ends = answer, time.monotonic()
        self.say()


def question(entries):
    """Where there are so many entries or more."""
    return random.choice((f"check {random.choice(NAMES)}", "list", "board", f"entry {max(0, entries - random.randrange(-2, 100))}"))


def is_question(line):
    return line.split(" ")[0] in ("check", "list", "board", "entry")


def told_by(line, answer, begins=0.0):
    """What the answer to a question tells."""
    word, *rest = line.split(" ")
    what = {"check": lambda: (rest[0], WORDS.get(answer, answer)), "list": lambda: dict(pair.rsplit("=", 1) for pair in answer.split(" ")),
            "board": lambda: int(answer), "entry": lambda: (int(rest[0]), answer)}[word]()
    return Told(word, what, begins)


class Checker(Connection):
    """A Check, and when it is answered the next one, over a connection of its own."""

    def __init__(self, load, client):
        self.name, self.begins = random.choice(NAMES), time.monotonic()
        super().__init__(load, client, load.server.port)
        self.send(asking("Check", self.name))

    def ended(self):
        if status := checked(self.read):
            self.client.told.append(Told("check", (self.name, status), self.begins))
            self.load.check(self.client)


def asking(method, name):
    return call(method, name.strip("-"))


def frames(body):
    """The frames of a body that are whole: their flag, and what they hold."""
    while len(body) >= 5 and len(body) >= 5 + int.from_bytes(body[1:5], "big"):
        end = 5 + int.from_bytes(body[1:5], "big")
        yield body[0], body[5:end]
        body = body[end:]


def checked(answer):
    """The status that the answer to a Check tells; None where it is not whole."""
    found = list(frames(answer.partition(b"\r\n\r\n")[2]))
    if not found or found[-1][0] != 0x80:
        return None
    if len(found) == 1:
        return "absent" if found[0][1].startswith(b"grpc-status:5\r\n") else found[0][1].decode()
    return WIRE.get(found[0][1], found[0][1].hex())


class Watcher(Connection):
    """A Watch, which has the statuses that it is told."""

    def __init__(self, load, client, name):
        self.statuses, self.is_open = [], False
        client.told.append(Told("watch", (name, self.statuses)))
        super().__init__(load, client, load.server.port)
        self.send(asking("Watch", name))

    def came(self):
        if not self.is_open:
            _, end, rest = self.read.partition(b"\r\n\r\n")
            if not end:
                return
            self.is_open, self.read = True, rest
        # A chunk for each message.
        while chunk := re.match(rb"([57])\r\n(\0{4}.(?:\x08.)?)\r\n", self.read, re.DOTALL):
            self.statuses.append(WIRE.get(chunk[2][5:], "?"))
            self.read = self.read[chunk.end():]
        if b"\x80" in self.read:
            self.statuses.append("the end")


class Load:
    """All that is beside one server, until it is killed."""

    def __init__(self, server):
        self.server, self.entries, self.is_shut = server, 0, False
        self.looker, self.clients = Client("who looks first"), []

    def run(self):
        """Goes on until the server is gone."""
        with selectors.DefaultSelector() as self.selector:
            try:
                self.begin()
            except OSError:
                # It was killed before all of them were there.
                pass
            while self.selector.get_map():
                for key, _ in self.selector.select():
                    key.data.is_ready()

    def look(self):
        """How all stands before anything is changed: at both places, and by Checks."""
        for place in (self.server.control, self.server.report):
            with self.server.session(place) as session:
                for line in ("board", "list", *(f"check {name}" for name in NAMES), None):
                    line = line or f"entry {self.entries - 1}"
                    self.looker.told.append(told_by(line, session.ask(line)))
                    self.entries = self.looker.told[0].what >> 32
        for name in NAMES:
            with self.server.connect() as client:
                client.sendall(asking("Check", name))
                self.looker.told.append(Told("check", (name, checked(all_of(client)))))

    def client(self, name, services=()):
        self.clients.append(Client(name, services))
        return self.clients[-1]

    def begin(self):
        for name in WATCHED:
            Watcher(self, self.client("a Watch"), name)
        for number, (own, change) in enumerate(zip(OWN, (self.first_change, *[changes] * 3))):
            client = self.client(f"session {number}", own if number else [*own, "shutdown", "resume"])
            Session(self, client, self.server.control, lambda own=own, change=change: change(*own))
        Session(self, self.client("the reporter", ["r"]), self.server.report, lambda: random.choice(("pass r", "fail r")))
        for _ in range(CHECKERS):
            self.check(self.client("Checks"))

    def check(self, client):
        try:
            Checker(self, client)
        except OSError:
            pass

    def first_change(self, *own):
        """Of the session that shuts the server down now and then, for as long as one line."""
        if self.is_shut or random.random() < 0.02:
            self.is_shut = not self.is_shut
            return "shutdown" if self.is_shut else "resume"
        return changes(*own)


def changes(a, b, c):
    """A change of a session's own services, by chance."""
    chance = random.random()
    if chance < 0.5:
        return f"{random.choice(('up', 'down'))} {a}"
    if chance < 0.8:
        return f"{random.choice(('pass', 'fail'))} {b}"
    if chance < 0.97:
        return random.choice(COMES_AND_GOES).format(c)
    # These change nothing, and the last two are refused.
    return random.choice((f"pass {a}", f"up {b}", "up nobody", f"register {c} threshold 0 1"))
