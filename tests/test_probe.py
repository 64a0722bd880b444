"""The exit status of `healthd ask` is a supervisor's probe."""
import socket

import pytest

EXPECTED, OTHER, NOTHING = 0, 3, 1  # the exit statuses


@pytest.fixture
def probe(program):
    """Asks at a port, with options, and gives the exit status."""
    def run(port, *options, expect="SERVING", timeout=20):
        return program.run("ask", "--host", "127.0.0.1", "--timeout", str(timeout), "--expect", expect, "--port", str(port), *options).returncode
    return run


def test_the_whole_server_is_probed_as_it_goes_down_and_up(webs, probe):
    assert probe(webs.port) == EXPECTED
    assert webs.tell("down", "-") == ("done", 0)
    assert probe(webs.port) == OTHER
    assert probe(webs.port, expect="not_serving") == EXPECTED  # in small letters
    assert probe(webs.port, expect="serving") == OTHER
    assert webs.tell("up", "-") == ("done", 0)
    assert probe(webs.port) == EXPECTED


@pytest.mark.parametrize("name, status", [("web1", EXPECTED), ("job", OTHER), ("nobody", OTHER)],
                         ids=["one that is up", "one that nobody has checked", "one that is unknown"])
def test_a_service_is_probed(webs, probe, name, status):
    assert probe(webs.port, "--name", name) == status


def test_a_server_that_is_silent_gives_no_answer_in_time(probe):
    with socket.create_server(("127.0.0.1", 0)) as silent:
        assert probe(silent.getsockname()[1], timeout=2) == NOTHING


def test_a_server_that_has_stopped_gives_no_answer(webs, probe):
    webs.stop()
    with socket.socket() as taken:
        # Nobody else listens there meanwhile.
        taken.bind(("127.0.0.1", webs.port))
        assert probe(webs.port) == NOTHING
