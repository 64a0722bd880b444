"""How services are after random changes, beside what a look back through the whole history finds. The look back knows no state: it goes
through the entries anew for each question, and counts findings in another way than the definitions do."""
import contextlib

import pytest
from hypothesis import HealthCheck, Phase, settings
from hypothesis import strategies as any_of
from hypothesis.stateful import RuleBasedStateMachine, initialize, rule, run_state_machine_as_test

from support.lasting import lasting

SCRIPTS, STEPS = 50, 50  # most steps are several changes
NAMES = ["a", "b", "c", "d"]
START = ("register", "-", ("manual",), "done")
A_NAME = any_of.sampled_from(NAMES)
A_FEW = any_of.integers(1, 4)


@any_of.composite
def rules(draw, name):
    """A rule that may be under this name: it depends on names before it."""
    on = [of for of in NAMES[:NAMES.index(name)] if draw(any_of.booleans())]
    return draw(any_of.one_of(any_of.tuples(any_of.just("threshold"), A_FEW, A_FEW),
                              any_of.tuples(any_of.just("threshold"), A_FEW, A_FEW, any_of.just("unknown")),
                              any_of.just(("manual",)), any_of.just(("depends", *on) if on else ("manual",))))


A_REGISTRATION = A_NAME.flatmap(lambda name: any_of.tuples(any_of.just(name), rules(name)))
FINDINGS = any_of.lists(any_of.sampled_from(["pass", "fail"]), min_size=1, max_size=10)


# The look back. An entry has its word, its name, its rule and its answer.

def newest(entries, fits):
    """The place of the newest entry that fits, if there is one."""
    return next((place for place in reversed(range(len(entries))) if fits(*entries[place])), None)


def shut_down(entries):
    """The newest shutdown, unless all was resumed after it."""
    place = newest(entries, lambda word, *_: word in ("shutdown", "resume"))
    return place if place is not None and entries[place][0] == "shutdown" else None


def forgot(entries, name):
    """Where the service was registered, or all resumed: it has heard nothing from before."""
    return newest(entries, lambda word, of, *_: word == "resume" or (word == "register" and of == name))


def rule_of(entries, name):
    place = newest(entries, lambda word, of, *_: word in ("register", "retire") and of == name)
    return entries[place][2] if place is not None and entries[place][0] == "register" else None


def heard(entries, name):
    """The findings that the service heard since it forgot: the place of each, and whether it is a fail. None is heard during a shutdown."""
    return [(place, entries[place][0] == "fail") for place in range(forgot(entries, name) + 1, len(entries))
            if entries[place][0] in ("pass", "fail") and entries[place][1] == name and entries[place][3] == "done"
            and shut_down(entries[:place]) is None]


def fell(findings, fall):
    """Where so many fails in a row ended last."""
    return next((findings[at][0] for at in reversed(range(len(findings)))
                 if at + 1 >= fall and all(fails for _, fails in findings[at + 1 - fall:at + 1])), None)


def rises(findings, rise):
    """Whether so many passes are in a row somewhere."""
    return any(not any(fails for _, fails in findings[at:at + rise]) for at in range(len(findings) - rise + 1))


def passes(findings):
    """How many passes in a row are at the end."""
    return next((count for count, (_, fails) in enumerate(reversed(findings)) if fails), len(findings))


def why(entries, name):
    """Why the service has its status, in the words of the server."""
    rule = rule_of(entries, name)
    if rule is None:
        place = newest(entries, lambda word, of, _, reply: word == "retire" and of == name and reply == "done")
        return "absent: never registered" if place is None else f"absent: retired by entry {place}"
    if shut_down(entries) is not None:
        return f"not_serving: shut down by entry {shut_down(entries)}"
    if rule[0] == "depends":
        down = next((of for of in NAMES if of in rule[1:] and why(entries, of) != "serving"), None)
        return "serving" if down is None else f"not_serving: depends on {down}"
    if rule[0] == "manual":
        place = newest(entries, lambda word, of, _, reply: (word in ("up", "down") and of == name and reply == "done")
                       or word == "resume" or (word == "register" and of == name))
        return f"not_serving: set down by entry {place}" if entries[place][0] == "down" else "serving"
    findings, fall, rise = heard(entries, name), rule[1], rule[2]
    if rule[3:] and not findings:
        return f"unknown: nothing heard since entry {forgot(entries, name)}"
    place = fell(findings, fall)
    if place is None or rises([finding for finding in findings if finding[0] > place], rise):
        return "serving"
    return f"not_serving: {fall} fails in a row up to entry {place}, {passes(findings)} of {rise} passes since"


def standing(entries, name, reasons):
    """How the service is: since when, when it was reported last, and why. The reasons are those after each entry."""
    shown = ["absent", *(reason.split(":")[0] for reason in reasons)]
    since = next((place for place in reversed(range(len(entries))) if shown[place] != shown[place + 1]), "-")
    report = newest(entries, lambda word, of, _, reply: word in ("pass", "fail") and of == name and reply == "done")
    return str(since), "-" if report is None else str(report), reasons[-1]


def told(text):
    """The same of an answer to the line `status`, without its times."""
    words = text.split(" ")
    reported = words.index("reported")
    expected = words.index("expected")
    return words[1], words[reported + 1], " ".join(words[expected + 2:])


class Changes(RuleBasedStateMachine):
    """A server of its own for each script. After each change it is asked how each service is."""

    def __init__(self, program):
        super().__init__()
        self.opened = contextlib.ExitStack()
        server = self.opened.enter_context(lasting(program, "--quiet", script=f"catalogue {' '.join(NAMES)} -\nregister - manual\n"))
        self.session = self.opened.enter_context(server.session())
        self.entries, self.reasons = [START], {name: [why([START], name)] for name in NAMES}

    def change(self, word, name, rule=()):
        line = word if word in ("shutdown", "resume") else " ".join([word, name, *map(str, rule)])
        self.session.send("".join(f"{one}\n" for one in [line, *(f"status {of}" for of in NAMES)]))
        reply, *answers = (self.session.answer() for _ in range(1 + len(NAMES)))
        assert not reply.startswith("refused") and reply != "bad line", (line, reply)
        self.entries.append((word, name, rule, reply))
        for of, text in zip(NAMES, answers):
            self.reasons[of].append(why(self.entries, of))
            assert told(text) == standing(self.entries, of, self.reasons[of]), (line, of, text)

    @initialize(made=any_of.tuples(*(rules(name) | any_of.none() for name in NAMES)))
    def begin(self, made):
        """Most services are registered at first."""
        for name, of in zip(NAMES, made):
            if of:
                self.change("register", name, of)

    @rule(of=A_REGISTRATION)
    def register(self, of):
        self.change("register", *of)

    @rule(name=A_NAME, findings=FINDINGS)
    def report(self, name, findings):
        """Most changes are findings."""
        for word in findings:
            self.change(word, name)

    @rule(findings=any_of.lists(any_of.tuples(any_of.sampled_from(["pass", "fail"]), A_NAME), min_size=2, max_size=10))
    def report_in_turn(self, findings):
        for word, name in findings:
            self.change(word, name)

    @rule(word=any_of.sampled_from(["up", "down", "down", "retire"]), name=A_NAME)
    def set(self, word, name):
        self.change(word, name)

    @rule(word=any_of.sampled_from(["shutdown", "resume", "resume"]))
    def set_all(self, word):
        self.change(word, "a")

    def teardown(self):
        self.opened.close()


@pytest.mark.timeout(600)  # where it fails Hypothesis looks for a short script that does so
def test_services_are_as_a_look_back_through_the_whole_history_finds_them(program):
    # The same scripts in each run, and no file is left of those that failed.
    run_state_machine_as_test(lambda: Changes(program), settings=settings(
        max_examples=SCRIPTS, stateful_step_count=STEPS, deadline=None, derandomize=True, database=None,
        phases=(Phase.generate, Phase.shrink), suppress_health_check=list(HealthCheck)))
