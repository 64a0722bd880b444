"""What the tests share: the program that they ask, and servers that end with the test that started them."""
import contextlib
import os
import resource
import shutil
import signal
import subprocess
import tempfile
from pathlib import Path

import pytest

pytest.register_assert_rewrite("support")

from support.chromium import Browser  # noqa: E402
from support.nginx import nginx_before  # noqa: E402
from support.program import Program  # noqa: E402
from support.server import Server  # noqa: E402
from support.waiting import Pauses, Within  # noqa: E402
from support.webs import WEBS  # noqa: E402

# What a shell starts in the background ignores SIGINT, and so would each server here.
signal.signal(signal.SIGINT, signal.default_int_handler)

# A server says so where it may open fewer files than its 10,000 connections want, and HAProxy sets itself up for as many as it may open.
MOST_FILES = resource.getrlimit(resource.RLIMIT_NOFILE)[1]
resource.setrlimit(resource.RLIMIT_NOFILE, (20_000 if MOST_FILES == resource.RLIM_INFINITY else min(20_000, MOST_FILES), MOST_FILES))

ROOT = Path(__file__).resolve().parent.parent
BUILT, TRIED = ROOT / "out/healthd", ROOT / "out/try/program/healthd"


def pytest_addoption(parser):
    parser.addoption("--program", default=os.environ.get("HEALTHD", "built"), metavar="PROGRAM",
                     help="built: out/healthd, which `make` makes; try: what `make try` compiles; or a path (default: $HEALTHD, or built)")
    parser.addoption("--kills", type=int, default=40, metavar="N", help="how often test_killing.py kills a server (default: 40)")


def path_of(config):
    """The program that is tested."""
    named = config.getoption("--program")
    return {"built": BUILT, "try": TRIED}.get(named, Path(named).resolve())


@pytest.fixture(scope="session")
def program(pytestconfig):
    """The program that is tested."""
    path = path_of(pytestconfig)
    if not os.access(path, os.X_OK):
        pytest.exit(f"there is no program {path}: `make` proves and builds it, and `make try` compiles one for --program try", 2)
    return Program(path)


@pytest.hookimpl(hookwrapper=True)
def pytest_runtest_makereport(item, call):
    """Where everything can be had, a test that was not made is no test."""
    report = (yield).get_result()
    if report.skipped and not hasattr(report, "wasxfail") and os.environ.get("CI") == "true":
        report.outcome, report.longrepr = "failed", f"skipped, which CI=true does not allow: {call.excinfo.value}"


def pytest_runtest_setup(item):
    if item.get_closest_marker("root") and os.geteuid() != 0:
        pytest.skip("it wants to be root")
    if item.get_closest_marker("built") and path_of(item.config).is_relative_to(ROOT / "out/try"):
        pytest.skip("it wants the program that `make` builds")


@pytest.fixture
def folder():
    """A folder that others may enter, with a path that is short enough for a socket in it."""
    path = tempfile.mkdtemp(prefix="healthd-", dir="/tmp")
    os.chmod(path, 0o755)
    yield path
    shutil.rmtree(path)


@pytest.fixture
def start(program, folder):
    """Starts a server. At the end of the test each that was started has to end in good order, unless the test has ended it."""
    with contextlib.ExitStack() as started:
        def start_one(*options, **how):
            server = Server(program, folder, *options, **how)
            started.callback(server.close)
            return server
        yield start_one


@pytest.fixture
def server(start):
    """A server with the services a, db and the whole server."""
    return start()


@pytest.fixture
def webs(start):
    """A server that other people's programs ask: two web servers, a job that nobody has checked yet, and the whole server."""
    return start("--threads", "2", script=WEBS)


@pytest.fixture
def nginx(webs, sources, folder):
    """The port of an nginx before that server."""
    with nginx_before(webs, sources, folder) as port:
        yield port


@pytest.fixture
def connected(start):
    """Lets so many clients come to a server, each of which sends this. They leave before the server ends."""
    with contextlib.ExitStack() as opened:
        def connect_all(server, count, said=b""):
            clients = [opened.enter_context(server.connect(20)) for _ in range(count)]
            for client in clients:
                client.sendall(said)
            return clients
        yield connect_all


@pytest.fixture
def watching(start):
    """Opens so many Watches at a server, which leave before it ends."""
    with contextlib.ExitStack() as opened:
        yield lambda server, count, name="a": [opened.enter_context(contextlib.closing(server.watch(name))) for _ in range(count)]


@pytest.fixture(scope="session")
def browser():
    """A Chromium, whose pages the tests close."""
    if not shutil.which("chromium"):
        pytest.skip("there is no Chromium")
    # It may still write there as it ends.
    with tempfile.TemporaryDirectory(prefix="healthd-", dir="/tmp", ignore_cleanup_errors=True) as folder, \
            contextlib.closing(Browser(folder)) as browser:
        yield browser


@pytest.fixture(scope="session")
def pauses():
    """How long this machine runs nothing, from now on."""
    return Pauses()


@pytest.fixture
def within(pauses):
    """Says within how many seconds something has to be done, but for a pause of the machine."""
    return Within(pauses)


@pytest.fixture(scope="session")
def compiled():
    """Compiles a library of support/ that is loaded before the program, and returns its path."""
    if not shutil.which("cc"):
        pytest.skip("there is no C compiler")
    with tempfile.TemporaryDirectory(prefix="healthd-", dir="/tmp") as folder:
        def compile_one(name):
            path = f"{folder}/{name}.so"
            if not os.path.exists(path):
                subprocess.run(["cc", "-O2", "-shared", "-fPIC", "-o", path, f"{ROOT}/tests/support/{name}.c"], check=True)
            return path
        yield compile_one


@pytest.fixture(scope="session")
def sources():
    """The folder of the sources."""
    return ROOT
