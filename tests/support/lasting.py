"""A server for tests that change nothing: it lasts as long as they do."""
import contextlib
import os
import tempfile

from support.server import Server


@contextlib.contextmanager
def lasting(program, *options, **how):
    """A server in a folder of its own, which ends in good order after it was used."""
    with tempfile.TemporaryDirectory(prefix="healthd-", dir="/tmp") as folder:
        os.chmod(folder, 0o755)
        with contextlib.closing(Server(program, folder, *options, **how)) as server:
            yield server
