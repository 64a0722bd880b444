"""`serve` without memory: it takes its calls beside an order of its script and tells how each ended, or says that there was no memory for it."""
import contextlib
import re

import pytest

from support.memory import OUT_OF_MEMORY
from support.serving import Serving, free_port
from support.wire import OK, SERVING, call, exchange, trailers
from support.wire import status as message

pytestmark = [pytest.mark.preload, pytest.mark.timeout(300)]

SCRIPT = "catalogue a b -\nmax 9\nregister a manual\nregister b manual\ngo\ndown b\n"
NO_CREW = "healthd: crew fault 5\n"
# The body of the answer to a Check whose call ended so.
ANSWERS = {"fault memory": b"", "unopened": b"", "status 0": message(SERVING) + OK,
           "status 5": trailers("grpc-status:5", "grpc-message:unknown service")}


@pytest.fixture
def port():
    return free_port()


@pytest.fixture
def act(program, memory, port):
    """Two Checks of a server to which this memory is refused: its first line, how the calls ended, its last line, what it said, its status, and
    whether they were answered so."""
    def act_without(refused):
        with refused, contextlib.closing(Serving(program, SCRIPT, 2, 2, port, memory.env)) as serving:
            answers = []
            for _ in range(2 if serving.first else 0):
                with contextlib.suppress(ConnectionError):
                    answers.append(exchange(port, call("Check", "a")).partition(b"\r\n\r\n")[2])
            status, lines, said = serving.end()
        ends = sorted(re.findall("(?m)^call [01] (.+)$", "\n".join(lines)))
        return serving.first, ends, lines[-1:], said, status, sorted(answers) == sorted(ANSWERS.get(end, b"?") for end in ends)
    return act_without


def test_a_call_fails_alone_or_is_unopened_and_an_order_is_not_made_and_where_no_call_can_be_taken_it_says_so(memory, port, act):
    listens = f"listening 127.0.0.1:{port}"
    right, unmade = ((listens, ["status 0"] * 2, [f"journal {entries}"], "", 0, True) for entries in (3, 2))

    def is_refusal(found):
        first, ends, last, said, status, are_answered = found
        if status == 1:
            return not ends and said in (OUT_OF_MEMORY, NO_CREW) and first in ("", listens)
        return (first, said, status, are_answered) == (listens, "", 0, True) and last in (["journal 2"], ["journal 3"])

    # Workers and orders want memory side by side, so that a request has another number in another run: once more, until each was refused.
    found = []
    for _ in range(5):
        found += memory.in_turn(act, right, is_refusal)
        ended, said = [ends for _, ends, *_ in found], [said for *_, said, _, _ in found]
        shown = ["fault memory", "status 0"] in ended, ["status 0", "unopened"] in ended, NO_CREW in said, unmade in found
        if all(shown):
            break
    assert all(shown), found
