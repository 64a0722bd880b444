"""A Watch that is read message by message."""
from support.wire import MESSAGE, WATCH_END, call


class Watch:
    def __init__(self, client, name="a"):
        client.sendall(call("Watch", name))
        self.client, self.file = client, client.makefile("rb")
        while self.file.readline().strip():
            pass

    def next(self):
        """The number of the next status that it is told, or what comes where that is no message."""
        message = self.file.read(len(MESSAGE) + 3)
        return message[len(MESSAGE)] if message.startswith(MESSAGE) else message

    def told(self, count):
        return [self.next() for _ in range(count)]

    def rest(self):
        """The numbers of the statuses that it is told before the server ends it, and what else there is where that is not its end."""
        rest, statuses, at = self.file.read(), [], 0
        while rest.startswith(MESSAGE, at):
            statuses.append(rest[at + len(MESSAGE)])
            at += len(MESSAGE) + 3
        return statuses if rest[at:] == WATCH_END else [*statuses, rest[at:]]

    def close(self):
        self.file.close()
        self.client.close()
