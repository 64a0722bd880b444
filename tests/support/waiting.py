"""A test waits for what it is about, and for no time of its own."""
import contextlib
import os
import threading
import time

PATIENCE = 10


def until(read, expected, patience=PATIENCE):
    """Reads again and again until it is as expected. At the end of its patience it reads once more: a pause may have come while it read."""
    ends = time.monotonic() + patience
    is_last = False
    while (found := read()) != expected and not is_last:
        time.sleep(0.02)
        is_last = time.monotonic() >= ends
    assert found == expected
    return found


class Pauses:
    """How long this machine runs nothing: on each processor a thread sleeps again and again, and takes down where it woke too late."""

    NAP = 0.02

    def __init__(self):
        self.seen = []
        self.asleep = {}
        for processor in os.sched_getaffinity(0):
            threading.Thread(target=self.nap, args=(processor,), daemon=True).start()

    def nap(self, processor):
        os.sched_setaffinity(0, {processor})  # of this thread alone
        while True:
            begins = self.asleep[processor] = time.monotonic()
            time.sleep(self.NAP)
            ends = time.monotonic()
            if ends - begins > 2 * self.NAP:
                self.seen.append((ends, ends - begins - self.NAP))

    def since(self, begins):
        """The longest that has ended since then, or goes on: whoever asks may run before the threads that slept through it."""
        now = time.monotonic()
        going_on = [now - slept - self.NAP for slept in list(self.asleep.values()) if now - slept > 2 * self.NAP]
        return max([seconds for ended, seconds in list(self.seen) if ended >= begins] + going_on, default=0.0)


class Within:
    """What `with within(SECONDS):` is done in took no longer, but for a pause of the whole machine. How long it took is printed."""

    def __init__(self, pauses):
        self.pauses = pauses

    @contextlib.contextmanager
    def __call__(self, most):
        begins = time.monotonic()
        yield
        self.took(time.monotonic() - begins, most, begins)

    def took(self, seconds, most, begins=None):
        """The same of what is over now. What was done in parts tells when the first of them began."""
        pause = self.pauses.since(time.monotonic() - seconds if begins is None else begins)
        print(f"it took {seconds:.3f} s of {most:g} s" + (f", with a pause of the machine of {pause:.3f} s" if pause else ""))
        assert seconds <= most + pause
