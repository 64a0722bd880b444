"""Why services have their statuses: an outage, as an operator asks through it."""
import pytest

SCRIPT = """catalogue db api web - slow gone
register db threshold 2 3
register api manual
register web depends db api
register - depends web
register slow threshold 1 1 unknown
"""

# Lines of one session, and what each is answered.
OUTAGE = [
    ("why -", "serving"),
    ("why slow", "unknown: nothing heard since entry 4"),
    ("why gone", "absent: never registered"),
    ("why nobody", "not found"),
    ("fail db", "done"),
    ("why db", "serving"),
    ("fail db", "done"),
    ("check -", "not serving"),
    ("why -", "not_serving: depends on web"),
    ("why web", "not_serving: depends on db"),
    ("why db", "not_serving: 2 fails in a row up to entry 6, 0 of 3 passes since"),
    ("pass db", "done"),
    ("why db", "not_serving: 2 fails in a row up to entry 6, 1 of 3 passes since"),
    ("fail db", "done"),
    ("why db", "not_serving: 2 fails in a row up to entry 6, 0 of 3 passes since"),
    ("fail db", "done"),
    ("why db", "not_serving: 2 fails in a row up to entry 9, 0 of 3 passes since"),
    ("down api", "done"),
    ("why web", "not_serving: depends on db"),
    ("why api", "not_serving: set down by entry 10"),
    ("pass db", "done"),
    ("pass db", "done"),
    ("pass db", "done"),
    ("why web", "not_serving: depends on api"),
    ("shutdown", "done"),
    ("why db", "not_serving: shut down by entry 14"),
    ("resume", "done"),
    ("why slow", "unknown: nothing heard since entry 15"),
    ("retire slow", "done"),
    ("why slow", "absent: retired by entry 16"),
    ("why -", "serving"),
]


@pytest.fixture
def server(start):
    return start(script=SCRIPT)


def test_an_outage_is_explained_at_each_of_its_steps(server):
    with server.session() as session:
        assert [(line, session.ask(line)) for line, _ in OUTAGE] == OUTAGE


def test_tell_prints_a_reason(server):
    assert server.tell("why", "api") == ("serving", 0)


def test_an_entry_that_is_no_longer_kept_is_told_as_an_older_one(server):
    with server.session() as session:
        assert session.ask("down api") == "done"
        for _ in range(70_000 // 50):
            assert session.ask_many("pass db", 50) == ["done"] * 50
        assert session.ask("why api") == "not_serving: set down by an older entry"
