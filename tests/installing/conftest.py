"""The package of the program, and what is installed from it. No test changes either."""
import os
import subprocess
import tempfile

import pytest

from support.command import ran_other


@pytest.fixture(scope="session")
def room():
    """A folder for what several tests look at."""
    with tempfile.TemporaryDirectory(prefix="healthd-", dir="/tmp") as path:
        os.chmod(path, 0o755)
        yield path


@pytest.fixture(scope="session")
def version(program):
    return program.run("--version").stdout


@pytest.fixture(scope="session")
def pack(program, sources):
    """Packs the program into a file, and returns what came of that."""
    return lambda path: ran_other(f"{sources}/scripts/package", path, env={"HEALTHD": str(program)})


@pytest.fixture(scope="session")
def package(pack, room):
    path = f"{room}/package.tar.gz"
    assert pack(path) == (0, f"{path}\n", "")
    return path


@pytest.fixture(scope="session")
def unpacked(package, room):
    """The folder of the package."""
    subprocess.run(["tar", "-xzf", package, "-C", room], check=True)
    [top] = [name for name in os.listdir(room) if name.startswith("healthd-")]
    return f"{room}/{top}"


@pytest.fixture(scope="session")
def install(unpacked):
    """Installs from the package, and returns what came of that."""
    return lambda *words, **env: ran_other(f"{unpacked}/install", *words, env=env)


@pytest.fixture(scope="session")
def prefix(install, room):
    """The folder in which it is installed."""
    path = f"{room}/prefix"
    assert install(path).status == 0
    return path
