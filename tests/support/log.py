"""The log of a server, as an operator reads it."""
from datetime import datetime, timezone

from support.waiting import until

ENDED = "INFO  ended: stopped"


def each(names, line):
    """The lines of one entry that changes several services."""
    return [line.format(name) for name in names.split()]


def seconds_of(text):
    """The time at the front of a line, in seconds."""
    return datetime.strptime(text.partition(" ")[0], "%Y-%m-%dT%H:%M:%S.%fZ").replace(tzinfo=timezone.utc).timestamp()


class Log:
    """All lines that a server's log is to have so far, without their times. Each is waited for, and none may come beside them."""

    def __init__(self, server, set_up="3 services, 3 entries"):
        self.server, self.lines = server, []
        self.has(f"INFO  serving on 127.0.0.1:{server.port}, {set_up}")

    def has(self, *lines):
        """It has these lines next."""
        self.lines += lines
        until(self.server.log, self.lines, 40)

    def after(self, change, *lines, answer="done"):
        """It has these lines next, because its server is told this change."""
        assert self.server.tell(*change.split(" "))[0] == answer
        self.has(*lines)

    def ends(self):
        """Its last line tells the end of its server."""
        self.server.stop()
        assert self.server.log() == [*self.lines, ENDED]
