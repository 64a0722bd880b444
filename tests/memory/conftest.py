"""Servers and commands to which memory is refused."""
import pytest

from support.memory import LOOPS, SETUP, Memory
from support.process import polling
from support.waiting import until


@pytest.fixture
def memory(program, compiled, folder):
    if program.has_sanitizer:
        pytest.skip("the memory checks of this program have its memory in their own hands")
    return Memory(compiled("refuse"), f"{folder}/order")


@pytest.fixture
def start_serving(start, memory):
    """Starts a server to which memory can be refused, and waits until it serves: a start that has no memory ends."""
    def begin(*options):
        server = start("--threads", "1", *options, script=SETUP, env=memory.env)
        until(lambda: polling(server.process), LOOPS)
        return server
    return begin


@pytest.fixture
def server(start_serving):
    return start_serving("--plain", "127.0.0.1:0")


@pytest.fixture
def session(server):
    """A session that was taken in while there was memory."""
    with server.session() as session:
        assert session.ask("check a") == "serving"
        yield session
