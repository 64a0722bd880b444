"""A command by its bytes: what it is given, prints and says is as it is written, also where a line ends in CR LF."""
import subprocess
from typing import NamedTuple

from support.program import Program


class Ran(NamedTuple):
    """The exit status of a command, what it printed, and what it said."""
    status: int
    printed: str
    said: str

    @property
    def last(self):
        """The last line of what it said."""
        return self.said[self.said.rfind("\n", 0, -1) + 1:]


def ran(program, *words, given=None, control=None, env=None, before=(), within=None, stdin=None, stdout=None, timeout=60):
    """A command that ends by itself. It is given a text, bytes, nothing or what is open as `stdin`. HEALTHD_CONTROL is `control`, or is not there.
    Where what it prints is no text, there is a character here that no expected text has."""
    options = {"stdin": stdin or subprocess.DEVNULL} if given is None else {"input": given if isinstance(given, bytes) else given.encode()}
    env = {**program.environment, **({} if control is None else {"HEALTHD_CONTROL": control}), **(env or {})}
    done = subprocess.run([*before, str(program), *words], stdout=stdout or subprocess.PIPE, stderr=subprocess.PIPE, cwd=within, env=env,
                          timeout=timeout, **options)
    return Ran(done.returncode, (done.stdout or b"").decode(errors="replace"), done.stderr.decode(errors="replace"))


def ran_other(path, *words, timeout=400, **how):
    """A command of another program than the one that is tested, which may take longer."""
    return ran(Program(path), *words, timeout=timeout, **how)


def why_ended(command):
    """The exit status of a command, what it printed, and the last line of what it said."""
    return command.status, command.printed, command.last
