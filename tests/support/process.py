"""What a process of the system does, and what is done to it."""
import contextlib
import os
import resource
import signal
import time

# How the system numbers it on x86-64.
EPOLL_WAIT = "232"


def freeze(process):
    """Stops a process, and returns once each of its threads has stopped."""
    process.send_signal(signal.SIGSTOP)
    folder = f"/proc/{process.pid}/task"

    def state(thread):
        try:
            with open(f"{folder}/{thread}/stat", encoding="utf-8") as file:
                return file.read().rpartition(") ")[2][:1]
        except OSError:
            return "T"  # it has ended

    while any(state(thread) != "T" for thread in os.listdir(folder)):
        time.sleep(0.001)


def thaw(process):
    process.send_signal(signal.SIGCONT)


def processor_seconds(process):
    """How many seconds of the processor a process has taken."""
    with open(f"/proc/{process.pid}/stat", encoding="utf-8") as file:
        ticks = sum(int(it) for it in file.read().rpartition(")")[2].split()[11:13])
    return ticks / os.sysconf("SC_CLK_TCK")


def polling(process):
    """How many threads of a process wait in a poll."""
    count, folder = 0, f"/proc/{process.pid}/task"
    with contextlib.suppress(OSError):  # one of them, or all, may have ended
        for thread in os.listdir(folder):
            with open(f"{folder}/{thread}/syscall", encoding="utf-8") as file:
                count += file.read().split()[0] == EPOLL_WAIT
    return count


@contextlib.contextmanager
def frozen(process):
    """Does what it is used for while none of the process's threads runs."""
    freeze(process)
    try:
        yield
    finally:
        thaw(process)


@contextlib.contextmanager
def without_descriptors(process):
    """Does what it is used for while a process may open nothing."""
    allowed = resource.prlimit(process.pid, resource.RLIMIT_NOFILE)
    resource.prlimit(process.pid, resource.RLIMIT_NOFILE, (3, allowed[1]))
    try:
        yield
    finally:
        resource.prlimit(process.pid, resource.RLIMIT_NOFILE, allowed)


# How a process is started that goes on where it may not write.
UNENDED_BY_LIMITS = ("env", "--ignore-signal=XFSZ")


@contextlib.contextmanager
def without_room(process, path, more=0):
    """Does what it is used for while a process may write to no file beyond the length of this one, or so many bytes more, as on a full disk."""
    resource.prlimit(process.pid, resource.RLIMIT_FSIZE, (os.path.getsize(path) + more, resource.RLIM_INFINITY))
    try:
        yield
    finally:
        resource.prlimit(process.pid, resource.RLIMIT_FSIZE, (resource.RLIM_INFINITY, resource.RLIM_INFINITY))
