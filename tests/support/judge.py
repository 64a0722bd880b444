"""Judges what a server told by the history that its file has: the rules of services, once more in Python, and all that was told held
against what they make of the history. A point of a history is a number of its entries, the oldest first."""
import re
from bisect import bisect_left, bisect_right
from itertools import accumulate, takewhile

ENTRY = re.compile(r"(\d+|-) (\S+) (setup|session \d+|expiry|-) (\S.*): (done|replaced|missing|wrong kind|ignored)")
FORMER = 65_536

ANSWERED = "each change that was answered is in the file once, and in its order"
ASKED = "the file has nothing else, and goes on from what it had"
LAWFUL = "each reply in the file is the one that the rules give"
TOLD = "each status that was told is one of the history, behind what had been told or answered before"
WATCHED = "each Watch was told the changes of its service, one after the other"
RESTORED = "a restart shows what the history comes to"
REPEATED = "an entry that was told is the file's"
PRINTED = "a file that is being written is printed up to some entry"
CLAIMS = (ANSWERED, ASKED, LAWFUL, TOLD, WATCHED, RESTORED, REPEATED, PRINTED)


class Wrong(Exception):
    """What does not hold, and why."""

    def __init__(self, claim, why):
        super().__init__(f"{claim}: {why}")
        self.claim, self.why = claim, why


def claim(name, fact, why):
    if not fact:
        raise Wrong(name, why)


class Service:
    """A registered service. Its memory counts fails in a row up to `fall`, and on from there passes in a row up to `rise`."""

    def __init__(self, words):
        self.kind, self.rely = words[0], words[1:] if words[0] == "depends" else []
        self.fall, self.rise = map(int, words[1:3]) if self.kind == "threshold" else (1, 0)
        self.opening = self.fall + self.rise if words[3:] == ["unknown"] else 0
        self.memory = self.opening

    def fits(self, event):
        return self.kind == {"pass": "threshold", "fail": "threshold", "up": "manual", "down": "manual"}[event]

    def hear(self, event):
        counted = 0 if self.is_unknown() else self.memory
        if event in ("up", "down"):
            self.memory = int(event == "down")
        elif event == "fail":
            self.memory = min(counted + 1, self.fall)
        else:
            self.memory = 0 if counted < self.fall or counted + 1 == self.fall + self.rise else counted + 1

    def is_unknown(self):
        return self.kind == "threshold" and self.memory == self.fall + self.rise


class Registry:
    """The services, as they are behind the calls that were made."""

    def __init__(self, names):
        self.names, self.services, self.is_shut = names, {}, False

    def make(self, call):
        """Makes a change, and gives the reply that it has."""
        word, *rest = call.split(" ")
        if word in ("shutdown", "resume"):
            self.is_shut = word == "shutdown"
            if not self.is_shut:
                for service in self.services.values():
                    service.memory = service.opening
            return "done"
        name, known = rest[0], rest[0] in self.services
        if word == "register":
            self.services[name] = Service(rest[1:])
            return "replaced" if known else "done"
        if not known:
            return "missing"
        if word == "retire":
            del self.services[name]
            return "done"
        if not self.services[name].fits(word):
            return "wrong kind"
        if self.is_shut:
            return "ignored"
        self.services[name].hear(word)
        return "done"

    def state(self):
        """All that later changes depend on."""
        return self.is_shut, {name: vars(service) for name, service in self.services.items()}

    def statuses(self):
        """The status of each name. One that depends on others depends on names before it."""
        found = {}
        for name in self.names:
            service = self.services.get(name)
            if service is None:
                found[name] = "absent"
            elif self.is_shut:
                found[name] = "not_serving"
            elif service.is_unknown():
                found[name] = "unknown"
            else:
                up = service.memory < service.fall and all(found[other] == "serving" for other in service.rely)
                found[name] = "serving" if up else "not_serving"
        return found


def entry(line):
    """The place, the change and the reply of an entry. A file that was written anew has entries without a place."""
    found = ENTRY.fullmatch(line)
    claim(ASKED, found, f"{line!r} is no entry")
    return None if found[1] == "-" else int(found[1]), found[4], found[5]


def lawful(registry, line, call, reply):
    """Makes the change of an entry, which has the reply that it has to have."""
    made = registry.make(call)
    claim(LAWFUL, made == reply, f"{line!r} should be {made}")


class History:
    """The entries of a file, and since which point each service has had which status."""

    def __init__(self, names):
        self.text, self.entries = "", []
        self.registry = Registry(names)
        self.points = {name: [0] for name in names}
        self.statuses = {name: ["absent"] for name in names}

    def __len__(self):
        return len(self.entries)

    def extend(self, text):
        """Takes what the file has now."""
        lines = text[len(self.text):].splitlines() if text.startswith(self.text) else self.anew(text.splitlines())
        for line in lines:
            number, call, reply = entry(line)
            claim(ASKED, number == len(self), f"{line!r} stands in the place of entry {len(self)}")
            self.entries.append((call, reply))
            lawful(self.registry, line, call, reply)
            for name, status in self.registry.statuses().items():
                if status != self.statuses[name][-1]:
                    self.points[name].append(len(self))
                    self.statuses[name].append(status)
        self.text = text

    def anew(self, lines):
        """A file that was written anew begins with entries without a place, which come to what the older ones do. Gives the new lines."""
        short = list(takewhile(lambda line: line.startswith("- "), lines))
        old = next((at for at, line in enumerate(self.text.splitlines()) if lines[at:at + 1] != [line]), len(lines))
        claim(ASKED, short, f"line {old + 1} of what it had is {lines[old:old + 1]}")
        there, here = Registry(self.registry.names), Registry(self.registry.names)
        for line in short:
            lawful(there, line, *entry(line)[1:])
        first = entry(lines[len(short)])[0] if lines[len(short):] else len(self)
        for call, _ in self.entries[:first]:
            here.make(call)
        claim(ASKED, there.state() == here.state(), f"what it has before entry {first} comes to {there.state()}, and not to {here.state()}")
        kept = [entry(line) for line in lines[len(short):][:len(self) - first]]
        claim(ASKED, first <= len(self) and kept == [(first + at, *each) for at, each in enumerate(self.entries[first:])],
              f"it has other entries than before from entry {first} on")
        return lines[len(short) + len(kept):]

    def place(self, name, point):
        return bisect_right(self.points[name], point) - 1

    def status(self, name, point):
        return self.statuses[name][self.place(name, point)]

    def point_of(self, name, status, least):
        """The first point from this one on at which a service has this status. None where there is none."""
        place = self.place(name, least)
        if self.statuses[name][place] == status:
            return least
        later = (at for at in range(place + 1, len(self.points[name])) if self.statuses[name][at] == status)
        return next((self.points[name][at] for at in later), None)


class Change:
    """A change that was asked for, when, and what came of it: nothing where nothing came back."""

    def __init__(self, call, begins, reply=None, ends=None):
        self.call, self.begins, self.reply, self.ends = call, begins, reply, ends
        self.place = None

    def is_entry(self):
        return self.reply is not None and not self.reply.startswith("refused ")

    def __repr__(self):
        return f"`{self.call}: {self.reply or '(no answer)'}`"


class Told:
    """What was told: a status, by `check`, all of them by `list` or `board`, an entry, or what came to a Watch; and when it was asked."""

    def __init__(self, word, what, begins=0.0):
        self.word, self.what, self.begins = word, what, begins


class Client:
    """What one client asked for and was told in one run, in its order: changes, and what it was told. No other client changes its
    services; `shutdown` and `resume` stand among them as services do."""

    def __init__(self, name, services=()):
        self.name, self.services, self.told = name, services, []

    def changes(self):
        return [each for each in self.told if isinstance(each, Change)]


def judge(history, start, looker, clients):
    """Holds all that was told in a run against the history of its file, which had so many entries when it began: to who looked before
    anything was changed, and then to its clients."""
    restored(history, start, looker)
    owners = {name: client for client in clients for name in client.services}
    found = {client: [] for client in clients}
    for place in range(start, len(history)):
        call, _ = history.entries[place]
        owner = owners.get(call.split(" ")[1] if " " in call else call)
        claim(ASKED, owner, f"entry {place}, `{call}`, was asked for by nobody")
        found[owner].append(place)
    made = {}
    for client in clients:
        match(history, client, found[client], made)
    in_time(start, made)
    answered = Answered(start, made)
    for client in clients:
        follow(history, client, start, answered)


def match(history, client, places, made):
    """Finds the client's changes among its entries, which are all those of its services."""
    asked = [change for change in client.changes() if change.is_entry()]
    for change, place in zip(asked, places):
        call, reply = history.entries[place]
        claim(ANSWERED, (call, reply) == (change.call, change.reply),
              f"{client.name} was answered {change!r}, where the file has entry {place}, `{call}: {reply}`")
        change.place, made[place] = place, change
    claim(ANSWERED, len(places) >= len(asked), f"{client.name} was answered {asked[len(places):][:3]}, which the file does not have")
    open_ = [change for change in client.changes() if change.reply is None]
    extra = [history.entries[place][0] for place in places[len(asked):]]
    claim(ASKED, extra in ([], [change.call for change in open_][:1]),
          f"{client.name} did not ask for {extra[:3]} behind {asked[-1:]}; it waits for {open_}")
    if extra:
        open_[0].place, made[places[-1]] = places[-1], open_[0]


def in_time(start, made):
    """What was answered before another change was asked for stands before it."""
    latest = None
    for place in range(start, start + len(made)):
        change = made[place]
        claim(ANSWERED, latest is None or change.ends is None or change.ends >= latest.begins,
              f"entry {place}, {change!r}, was answered before entry {latest and latest.place}, {latest!r}, was asked for")
        if latest is None or change.begins > latest.begins:
            latest = change


class Answered:
    """How many entries had been made, at least, when something was asked: up to the last change that had been answered."""

    def __init__(self, start, made):
        ends = sorted((change.ends, place + 1) for place, change in made.items() if change.ends is not None)
        self.times = [time for time, _ in ends]
        self.points = [start, *accumulate((point for _, point in ends), max)]

    def at(self, time):
        return self.points[bisect_left(self.times, time)]


def follow(history, client, start, answered):
    """Goes through what a client was told. It knows of the history up to `at` at least."""
    at = start
    for each in client.told:
        if isinstance(each, Change):
            at = max(at, each.place + 1 if each.is_entry() else at)
        elif each.word == "watch":
            watched(history, client, start, *each.what)
        else:
            at = max(at, answered.at(each.begins))
            at = {"check": checked, "list": listed, "board": boarded, "entry": entry_told}[each.word](history, client, at, each.what)


def checked(history, client, at, what):
    name, status = what
    point = history.point_of(name, status, at)
    claim(TOLD, point is not None,
          f"{client.name} was told that {name} is {status}, which it is nowhere from entry {at} on, of {len(history)}")
    return point


def listed(history, client, at, statuses):
    """All of them at one point."""
    point = at
    while True:
        least = point
        for name, status in statuses.items():
            point = checked(history, client, point, (name, status))
        if point == least:
            return point


def boarded(history, client, at, word):
    """The number of entries, and two bits for each service."""
    point, bits = word >> 32, word & 0xFFFFFFFF
    claim(TOLD, at <= point <= len(history),
          f"{client.name} was told a board of {point} entries; it had seen {at}, and the file has {len(history)}")
    for place, name in enumerate(history.registry.names):
        told = ("absent", "serving", "not_serving", "unknown")[bits >> 2 * place & 3]
        actual = history.status(name, point)
        claim(TOLD, told == actual, f"{client.name} was told by a board that {name} is {told} at entry {point}, where it is {actual}")
    return point


def entry_told(history, client, at, what):
    number, answer = what
    if answer == "none yet":
        claim(REPEATED, at <= number, f"{client.name} was told that there is no entry {number} yet, and had seen {at}")
        return at
    if answer == "forgotten":
        claim(REPEATED, number + FORMER < len(history), f"{client.name} was told that entry {number} of {len(history)} is forgotten")
        return at
    found = ENTRY.fullmatch(answer)
    claim(REPEATED, found and found[1] == str(number) and number < len(history) and (found[4], found[5]) == history.entries[number],
          f"{client.name} was told {answer!r}, where the file has {history.entries[number:number + 1]}")
    return max(at, number + 1)


def watched(history, client, start, name, statuses):
    """They stand in a row among those that the service has had since the run began."""
    actual = history.statuses[name][history.place(name, start):]
    letters = {"absent": "a", "serving": "s", "not_serving": "n", "unknown": "u"}
    row, all_ = ("".join(letters.get(status, "?") for status in each) for each in (statuses, actual))
    claim(WATCHED, row in all_, f"{client.name} of {name} was told {row}, which is no part of {all_}, from entry {start} on")


def restored(history, start, looker):
    """What is shown before anything is changed is what the entries come to that the file had."""
    for word, what in ((each.word, each.what) for each in looker.told):
        if word == "board":
            claim(RESTORED, what >> 32 == start, f"a board counts {what >> 32} entries, and the file had {start}")
            boarded(history, looker, start, what)
        elif word == "entry":
            entry_told(history, looker, start, what)
        else:
            for name, status in what.items() if word == "list" else [what]:
                actual = history.status(name, start)
                claim(RESTORED, status == actual,
                      f"{looker.name} was told by `{word}` that {name} is {status}, which is {actual} behind {start} entries")
