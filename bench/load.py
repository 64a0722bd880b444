"""Checks by many clients at once, each over a connection of its own, and what they took."""
import multiprocessing
import re
import shutil
import subprocess
import tempfile
import time
from statistics import median, quantiles

from common import holds
from support.wire import all_of, call, connect, request

# ab speaks HTTP/1.0, which healthd refuses; wrk speaks 1.1, and connects anew where an answer says that its connection is closed.
WRK = shutil.which("wrk")
CHECK = call("Check", "a")
ASKS = ('wrk.method = "POST"\nwrk.headers["content-type"] = "application/grpc-web+proto"\n'
        'wrk.body = "' + "".join(f"\\{byte}" for byte in request("a")) + '"\n')
UNITS = {"us": 1, "ms": 1_000, "s": 1_000_000, "m": 60_000_000}
FORK = multiprocessing.get_context("fork")


class Figures:
    """How many requests there were in a second, and how many microseconds one took."""

    def __init__(self, rate, middle, slow, longest=None):
        self.rate, self.middle, self.slow, self.longest = rate, middle, slow, longest

    @classmethod
    def of(cls, times, seconds):
        """Of times in nanoseconds, made side by side in so many seconds."""
        micros = [nanoseconds / 1_000 for nanoseconds in times]
        return cls(len(times) / seconds, median(micros), quantiles(micros, n=100)[-1], max(micros))


def check(port):
    """The whole answer to a Check of `a`."""
    with connect(port) as client:
        client.sendall(CHECK)
        return all_of(client)


def holds_answer(port, body):
    answer = check(port)
    holds("a Check is answered", answer.startswith(b"HTTP/1.1 200 ") and answer.endswith(b"\r\n\r\n" + body), str(answer))


class Askers:
    """Clients in processes of their own, each of which connects, asks, reads to the end of the connection, and goes on to the next."""

    def __init__(self, port, clients, each, body):
        self.told, self.begin = FORK.SimpleQueue(), FORK.Barrier(clients)
        self.processes = [FORK.Process(target=self.ask, args=(port, each, body)) for _ in range(clients)]
        for process in self.processes:
            process.start()

    def ask(self, port, each, body):
        wrong, times = 0, []
        self.begin.wait()
        begins = time.monotonic()
        for _ in range(each):
            start = time.monotonic_ns()
            answer = check(port)
            times.append(time.monotonic_ns() - start)
            wrong += not answer.endswith(body)
        self.told.put((begins, time.monotonic(), times, wrong))

    def are_asking(self):
        return any(process.is_alive() for process in self.processes)

    def figures(self):
        """What they took, once all of them are done."""
        told = [self.told.get() for _ in self.processes]
        for process in self.processes:
            process.join()
        holds("each Check is answered", not any(wrong for *_, wrong in told))
        times = [each for _, _, times, _ in told for each in times]
        return Figures.of(times, max(end for _, end, *_ in told) - min(begin for begin, *_ in told))


def by_sockets(port, clients, connections, body):
    """What as many connections took that the clients share evenly."""
    return Askers(port, clients, connections // clients, body).figures()


def by_wrk(port, clients, threads):
    """What the Checks of one second took, from when a request is written to the end of its answer."""
    with tempfile.NamedTemporaryFile("w", suffix=".lua") as script:
        script.write(ASKS)
        script.flush()
        command = [WRK, f"-t{min(clients, threads)}", f"-c{clients}", "-d1s", "--timeout=20s", "--latency", f"-s{script.name}",
                   f"http://127.0.0.1:{port}/grpc.health.v1.Health/Check"]
        said = subprocess.run(command, capture_output=True, text=True, timeout=60).stdout
    holds("each Check is answered", not re.search("Non-2xx|Socket errors", said), said)
    times = {share: float(number) * UNITS[unit] for share, number, unit in re.findall(r"(\d+)% +([\d.]+)(us|ms|s|m) *\n", said)}
    rate = re.search(r"Requests/sec: +([\d.]+)", said)
    holds("wrk tells its figures", rate and "50" in times and "99" in times, said)
    return Figures(float(rate[1]), times["50"], times["99"])
