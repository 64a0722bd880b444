"""What the judge of test_killing.py refuses: a run that never was, which it lets through, and then with one thing altered at a time."""
import pytest

from support.beside import NAMES, SETUP
from support.judge import ANSWERED, ASKED, LAWFUL, REPEATED, RESTORED, TOLD, WATCHED, Change, Client, History, Registry, Told, Wrong, judge

# Who asked for which change; the last one was not answered.
STORY = [(0, "down s0a"), (1, "fail s1b"), (0, "up s0a"), (1, "fail s1b"), (1, "pass s1b"), (0, "retire s0c"), (0, "register s0c manual"),
         (1, "pass s1b"), (0, "shutdown"), (1, "fail s1b"), (0, "resume"), (1, "down s1a"), (0, "down s0a"), (1, "up s1a"), (0, "up s0a")]
NUMBERS = {"absent": 0, "serving": 1, "not_serving": 2, "unknown": 3}


class Story:
    """What the file of this run has, and what was told in it."""

    def __init__(self):
        registry = Registry(NAMES)
        self.made = [(line, registry.make(line)) for line in SETUP]
        self.looker, self.checks = Client("who looks first"), Client("Checks")
        self.sessions = [Client("session 0", ["s0a", "s0b", "s0c", "shutdown", "resume"]), Client("session 1", ["s1a", "s1b", "s1c"])]
        self.watches = [Client("a Watch"), Client("a Watch")]
        self.board = sum(NUMBERS[status] << 2 * place for place, status in enumerate(registry.statuses().values()))
        self.looker.told += [Told("board", (len(SETUP) << 32) + self.board), Told("list", registry.statuses()),
                             Told("check", ("s0a", "serving"))]
        for watch, name in zip(self.watches, ("s0a", "-")):
            watch.told.append(Told("watch", (name, [registry.statuses()[name]])))
        for number, (who, call) in enumerate(STORY):
            reply = registry.make(call)
            self.made.append((call, reply))
            is_last = number + 1 == len(STORY)
            self.sessions[who].told.append(Change(call, number, *(() if is_last else (reply, number + 0.5))))
            self.tell(number + 0.6, registry.statuses(), f"{call}: {reply}")
        self.sessions[1].told.append(Told("entry", (len(self.made), "none yet"), number + 1))

    def tell(self, now, statuses, change):
        for watch in self.watches:
            name, told = watch.told[0].what
            if told[-1] != statuses[name]:
                told.append(statuses[name])
        newest = len(self.made) - 1
        self.checks.told += [Told("list", statuses, now), Told("check", ("s1b", statuses["s1b"]), now),
                             Told("entry", (newest, f"{newest} - - {change}"), now)]

    def text(self):
        return "".join(f"{place} 2026-11-28T13:00:00.000000Z session 1 {call}: {reply}\n" for place, (call, reply) in enumerate(self.made))

    def judge(self):
        history = History(NAMES)
        history.extend(self.text())
        judge(history, len(SETUP), self.looker, [*self.sessions, *self.watches, self.checks])
        return history


def at(call, after=0):
    """Where the file has a change of the story."""
    return len(SETUP) + [line for _, line in STORY].index(call, after)


def lose(story, place):
    del story.made[place]


def double(story, place):
    story.made.insert(place, story.made[place])


def swap(story, place):
    story.made[place - 1:place + 1] = reversed(story.made[place - 1:place + 1])


def tell(word, what, first=False, begins=0.0):
    """Something else that is told, after all or before."""
    return lambda story: story.checks.told.insert(0 if first else len(story.checks.told), Told(word, what, begins))


def look(word, what):
    return lambda story: story.looker.told.append(Told(word, what))


def told_by_watch(alter):
    return lambda story: alter(story.watches[0].told[0].what[1])


def grow(text):
    """The file as it was printed, and then with another text."""
    def alter(story):
        history = story.judge()
        history.extend(text(story))
    return alter


def lost(story):
    lose(story, 3)
    return story.text()


def anew(*short, keeps=3):
    """The newest entries of the file, and short ones in place of the others."""
    def text(story):
        lines = story.text().splitlines(keepends=True)
        setup = [line for line in SETUP if not line.startswith("register s0a")]
        return "".join(f"- - - {line}: done\n" for line in [*setup, *short]) + "".join(lines[len(lines) - keeps:])
    return text


# What the older entries of the story come to. Nothing but resume has its thresholds forget what they heard.
COMES_TO = ("register s0a manual", "register s0c manual", "down s1a")

END = len(SETUP) + len(STORY)
ALTERED = [
    ("a change that is lost", ANSWERED, lambda story: lose(story, at("fail s1b"))),
    ("a newest change that is lost", ANSWERED, lambda story: story.made.__delitem__(slice(-2, None))),
    ("a change that is made twice", ANSWERED, lambda story: double(story, at("down s0a"))),
    ("a newest change that is made twice", ASKED, lambda story: double(story, at("up s0a", 14))),
    ("changes of one session in another order", ANSWERED, lambda story: swap(story, at("fail s1b", 3) + 1)),
    ("changes of two sessions in another order", ANSWERED, lambda story: swap(story, at("fail s1b"))),
    ("a change that nobody asked for", ASKED, lambda story: story.made.append(("down s2a", "done"))),
    ("a change that its session did not ask for", ASKED, lambda story: story.made.append(("up s1a", "done"))),
    ("an entry in the place of another", ASKED, lambda story: story.made.__setitem__(3, ("nothing", "at all"))),
    ("entries that are gone", ASKED, grow(lost)),
    ("a line that is no entry", ASKED, grow(lambda story: story.text() + "up s1a\n")),
    ("a file written anew that comes to something else", ASKED, grow(anew(*COMES_TO[:-1]))),
    ("a file written anew with another entry", ASKED, grow(lambda story: anew(*COMES_TO)(story).replace("down s0a", "up s0a"))),
    ("a file written anew with fewer entries", ASKED, grow(lambda story: anew(*COMES_TO)(story).rsplit("\n", 2)[0] + "\n")),
    ("another reply", LAWFUL, lambda story: story.made.__setitem__(at("retire s0c"), ("retire s0c", "done"))),
    ("a status that never was", TOLD, tell("check", ("w", "unknown"))),
    ("a status that was before what had been told", TOLD, tell("check", ("s1b", "not_serving"))),
    ("a status that was before what had been answered", TOLD, tell("check", ("s1b", "not_serving"), first=True, begins=11)),
    ("statuses that never were at once", TOLD,
     tell("list", {"s0a": "not_serving", "s1a": "serving", "s1b": "not_serving"}, first=True)),
    ("a board of more entries than the file has", TOLD, tell("board", END + 1 << 32)),
    ("a board with another status", TOLD, tell("board", END << 32)),
    ("a Watch that missed a status", WATCHED, told_by_watch(lambda told: told.pop(1))),
    ("a Watch that was told one twice", WATCHED, told_by_watch(lambda told: told.insert(1, told[0]))),
    ("a Watch that was ended", WATCHED, told_by_watch(lambda told: told.append("the end"))),
    ("an entry that is another one's", REPEATED, tell("entry", (END - 2, f"{END - 2} - - up s1b: done"))),
    ("an entry that the file does not have", REPEATED, tell("entry", (END, f"{END} - - up s1a: done"))),
    ("an entry that is none yet, and was told", REPEATED, tell("entry", (END - 1, "none yet"))),
    ("a restart with another status", RESTORED, look("check", ("s0a", "not_serving"))),
    ("a restart with fewer entries", RESTORED, look("board", len(SETUP) - 1 << 32)),
]


def test_the_judge_lets_through_what_was_lawful():
    assert len(Story().judge()) == END


def test_the_judge_lets_through_a_file_that_was_written_anew():
    history = Story().judge()
    history.extend(anew(*COMES_TO)(Story()) + f"{END} - - retire w: done\n")
    assert len(history) == END + 1


@pytest.mark.parametrize("claim, alter", [pytest.param(claim, alter, id=name) for name, claim, alter in ALTERED])
def test_the_judge_refuses(claim, alter):
    story = Story()
    with pytest.raises(Wrong) as refused:
        alter(story)
        story.judge()
    assert refused.value.claim == claim
