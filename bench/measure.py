#!/usr/bin/python3 -B
"""Times the program: Checks beside nginx and a loop in C, `serve` beside `run`, changes told to many Watches, and memory.

  HEALTHD=PROGRAM bench/measure.py [ROUNDS [PART..]]

A PART is checks, grpc_go, servers, watches or memory; without one it is all of them. Prints tables. Wants nothing else to run beside it.
nginx, wrk, a C compiler, and Go with golang-google-grpc-dev are used where they are installed; without wrk, Checks are made by clients of its own.
"""
import os
import resource
import shutil
import socket
import struct
import subprocess
import sys
import tempfile
import time
from collections import defaultdict
from contextlib import ExitStack, closing
from statistics import median

import load
from common import HEALTHD, HERE, holds, until
from support.server import SCRIPT, Server
from support.session import numbers
from support.serving import Serving, free_port
from support.wire import NOT_SERVING, OK, SERVING, call, chunk, connect, status

PARTS = ("checks", "grpc_go", "servers", "watches", "memory")
CLIENTS = (1, 2, 4, 64)
CORES = len(os.sched_getaffinity(0))
PATH = f"{os.environ['PATH']}:/usr/sbin:/sbin"
# The connections of one run, where clients of its own share them; `serve` ends after 1,000 at most.
CONNECTIONS = 960
BODY = status(SERVING) + OK
# As many as `run` takes without options, and how often each is told a change in a round.
WATCHES, CHANGES, CHECKS = 9_000, 11, 2_000
TOLD = {"up": chunk(status(SERVING)), "down": chunk(status(NOT_SERVING))}
# Changes by one session, in pieces; the first tenth of them comes before.
GROWTH, PIECE = 1_000_000, 1_000


def table(title, columns, rows):
    print(f"\n{title}\n\n| | {' | '.join(map(str, columns))} |\n|{'---|' * (len(columns) + 1)}")
    for name, cells in rows:
        print(f"| {name} | {' | '.join(cell if isinstance(cell, str) else f'{cell:,.{0 if cell >= 10 else 2}f}' for cell in cells)} |")
    sys.stdout.flush()


def kib(process):
    """The memory of a process (VmRSS)."""
    with open(f"/proc/{process.pid}/status") as file:
        return next(int(line.split()[1]) for line in file if line.startswith("VmRSS:"))


def descriptors(process):
    return len(os.listdir(f"/proc/{process.pid}/fd"))


class Places:
    """The servers that are compared. All of them end with it."""

    def __init__(self):
        self.stack = ExitStack()
        self.folder = self.stack.enter_context(tempfile.TemporaryDirectory(prefix="healthd-measure-"))

    def __enter__(self):
        return self

    def __exit__(self, *_):
        self.stack.close()

    def healthd(self, *options, **named):
        server = Server(HEALTHD, self.folder, "--quiet", *options, **named)
        self.stack.callback(server.kill)
        return server

    def started(self, *command, **named):
        process = subprocess.Popen(command, stdin=subprocess.DEVNULL, **named)
        # Told to end, and not killed: nginx has workers.
        self.stack.callback(lambda: (process.terminate(), process.wait(20)))
        return process

    def nginx(self):
        """The port of one with two workers that answers fixed bytes, as many as the body of a Check's answer; none without nginx."""
        program = shutil.which("nginx", path=PATH)
        if not program:
            return None
        port = free_port()
        temporary = "".join(f"{kind}_temp_path {self.folder}/{kind};" for kind in ("client_body", "proxy", "fastcgi", "uwsgi", "scgi"))
        with open(f"{self.folder}/nginx.conf", "w") as file:
            file.write(f"daemon off; worker_processes 2; pid {self.folder}/pid; error_log {self.folder}/error;"
                       f"events {{ worker_connections 4096; }} http {{ access_log off; {temporary} server {{"
                       f"listen 127.0.0.1:{port} backlog=4096; keepalive_timeout 0; default_type application/grpc-web+proto;"
                       f'location / {{ return 200 "{"x" * len(BODY)}"; }} }} }}')
        self.started(program, "-c", f"{self.folder}/nginx.conf", stderr=subprocess.DEVNULL)
        until("nginx listens", lambda: socket.socket().connect_ex(("127.0.0.1", port)), 0)
        return port

    def loop(self, threads):
        """The port of a loop in C in so many threads; none without a compiler."""
        compiler = shutil.which("cc")
        if not compiler:
            return None
        subprocess.run([compiler, "-O2", "-pthread", "-o", f"{self.folder}/loop", f"{HERE}/loop.c"], check=True)
        process = self.started(f"{self.folder}/loop", str(threads), stdout=subprocess.PIPE)
        return int(process.stdout.readline())


def checks(rounds):
    """Checks of one second, or of so many connections, in turns."""
    with Places() as places:
        ports = {"nginx": places.nginx(), f"C, {CORES} loops": places.loop(CORES), "C, 1 loop": places.loop(1),
                 f"healthd, {CORES} loops": places.healthd("--threads", str(CORES)).port,
                 "healthd, 1 loop": places.healthd("--threads", "1").port}
        for name in [name for name in ports if not ports[name]]:
            print(f"{name}: not installed")
            del ports[name]
        bodies = {name: b"x" * len(BODY) if name == "nginx" else BODY for name in ports}
        found = defaultdict(list)
        for _ in range(rounds):
            for clients in CLIENTS:
                for name, port in ports.items():
                    load.holds_answer(port, bodies[name])
                    found[name, clients].append(load.by_wrk(port, clients, CORES) if load.WRK else
                                                load.by_sockets(port, clients, CONNECTIONS, bodies[name]))
    first = next(iter(ports))
    how = "wrk, a second each" if load.WRK else f"clients of its own, {CONNECTIONS} connections each"
    for title, figure in ((f"Requests a second ({how})", lambda runs, _: median(run.rate for run in runs)),
                          (f"Of those of {first}, median of the rounds' ratios",
                           lambda runs, firsts: median(run.rate / one.rate for run, one in zip(runs, firsts))),
                          ("Time of a request, median, microseconds", lambda runs, _: median(run.middle for run in runs)),
                          ("99th percentile, microseconds", lambda runs, _: median(run.slow for run in runs))):
        table(title, [f"{clients} client{'s' * (clients > 1)}" for clients in CLIENTS],
              [(name, [figure(found[name, clients], found[first, clients]) for clients in CLIENTS]) for name in ports])


def grpc_go(rounds):
    """Checks of the health server of grpc-go, in turns, by clients that are all of one program."""
    compiler, sources = shutil.which("go"), "/usr/share/gocode"
    if not compiler or not os.path.isdir(f"{sources}/src/google.golang.org/grpc/health"):
        print("grpc-go: not installed")
        return
    with Places() as places:
        program = f"{places.folder}/grpc_go"
        subprocess.run([compiler, "build", "-o", program, f"{HERE}/grpc_go.go"], check=True,
                       env={**os.environ, "GO111MODULE": "off", "GOPATH": sources, "GOCACHE": f"{places.folder}/cache"})
        port = int(places.started(program, "serve", stdout=subprocess.PIPE).stdout.readline())
        kinds = {"healthd, a connection for each": ("web", places.healthd("--threads", str(CORES)).port),
                 "grpc-go, a connection for each": ("grpc", port), "grpc-go, a connection for each client": ("kept", port)}
        found = defaultdict(list)
        for _ in range(rounds):
            for clients in CLIENTS:
                for name, (kind, at) in kinds.items():
                    said = subprocess.check_output([program, "ask", kind, str(at), str(clients), "1"], text=True)
                    found[name, clients].append([float(it) for it in said.split()])
    for title, figure in (("Checks a second, of clients by Go, a second each", 0), ("Time of a Check, median, microseconds", 1),
                          ("99th percentile, microseconds", 2)):
        table(title, [f"{clients} client{'s' * (clients > 1)}" for clients in CLIENTS],
              [(name, [median(run[figure] for run in found[name, clients]) for clients in CLIENTS]) for name in kinds])


def by_serve(clients):
    """Checks of a `healthd serve` of four workers, which has to tell each of them as answered."""
    with closing(Serving(HEALTHD, SCRIPT.replace("\n", "\nmax 10\n", 1), 4, CONNECTIONS)) as serving:
        figures = load.by_sockets(serving.port, clients, CONNECTIONS, BODY)
        _, ended, _ = serving.end()
    holds("each call is told as answered", [line.split(" ", 2)[2] for line in ended[:-1]] == ["status 0"] * CONNECTIONS, str(ended))
    return figures


def servers_beside(rounds):
    """Both servers, the one that ends after so many calls and the one that runs until it is told to end."""
    found = defaultdict(list)
    with Places() as places:
        server = places.healthd("--threads", "2")
        for _ in range(rounds):
            for clients in CLIENTS:
                found["serve", clients].append(by_serve(clients))
                found["run", clients].append(load.by_sockets(server.port, clients, CONNECTIONS, BODY))
        until("each call has ended", lambda: server.stats()["calls"], rounds * len(CLIENTS) * CONNECTIONS)
    table(f"`serve` with 4 workers and `run` with 2 loops, {CONNECTIONS} connections each, clients of its own",
          [f"`{name}`, {what}" for name in ("serve", "run") for what in ("requests a second", "median", "99th percentile")],
          [(f"{clients} client{'s' * (clients > 1)}", [median(getattr(run, what) for run in found[name, clients])
                                                       for name in ("serve", "run") for what in ("rate", "middle", "slow")]) for clients in CLIENTS])


def bare_loop(listener, count, wakes):
    """Tells as many clients as a server could at most: writes the bytes of each change to all of them."""
    clients = [listener.accept()[0] for _ in range(count)]
    for client in clients:
        client.recv(4096)
        client.sendall(b"HTTP/1.1 200 OK\r\n\r\n" + TOLD["up"])
    while word := wakes.recv(4).decode():
        message = TOLD[word]
        for client in clients:
            client.send(message)


class Audience:
    """So many Watches of `a`, all told that it is serving, and how to change it."""

    def __init__(self, port, count, change):
        self.clients, self.change = [], change
        while len(self.clients) < count:
            some = [connect(port) for _ in range(min(100, count - len(self.clients)))]
            for client in some:
                client.sendall(call("Watch", "a"))
            self.clients += some
        for client in self.clients:
            # A limit that costs a read no other system call, as Python's own would.
            client.settimeout(None)
            client.setsockopt(socket.SOL_SOCKET, socket.SO_RCVTIMEO, struct.pack("ll", 60, 0))
            read = b""
            while not read.endswith(TOLD["up"]):
                read += client.recv(4096)

    def tell(self, word):
        """The milliseconds from when a change is asked for until each client has read of it, one after the other."""
        message, begins = TOLD[word], time.monotonic()
        self.change(word)
        wrong = sum(client.recv(4096) != message for client in self.clients)
        seconds = time.monotonic() - begins
        holds("each Watch is told each change", not wrong, f"{wrong} of {len(self.clients)} were not")
        return 1_000 * seconds

    def close(self):
        for client in self.clients:
            client.close()


def watches(rounds):
    """Many Watches of one service: their memory, the time of a change until all are told, and Checks beside them."""
    most = resource.getrlimit(resource.RLIMIT_NOFILE)[1]
    resource.setrlimit(resource.RLIMIT_NOFILE, (most, most))
    # The clients of both servers are in this process.
    count = min(WATCHES, (most - 200) // 2)
    with Places() as places, socket.create_server(("127.0.0.1", 0), backlog=4_096) as listener:
        here, there = socket.socketpair(type=socket.SOCK_SEQPACKET)
        loop = load.FORK.Process(target=bare_loop, args=(listener, count, there), daemon=True)
        loop.start()
        bare = Audience(listener.getsockname()[1], count, lambda word: here.send(word.encode()))
        server = places.healthd("--threads", "2")
        process, session = server.process, server.session(timeout=60)
        session.ask("stats")  # it is taken in, and has its descriptor
        memory, open_files = [kib(process)], [descriptors(process)]
        live = Audience(server.port, count, lambda word: session.send(f"{word} a\n"))
        memory.append(kib(process))
        open_files.append(descriptors(process))
        times, requests = defaultdict(list), defaultdict(list)
        for _ in range(rounds):
            for _ in range(CHANGES):
                for word in ("down", "up"):
                    times["a bare loop"].append(bare.tell(word))
                    times["healthd, 2 loops"].append(live.tell(word))
            requests["idle"].append(load.by_sockets(server.port, 1, CHECKS, OK))
            askers = load.Askers(server.port, 1, CHECKS, OK)
            while askers.are_asking():
                times["healthd, 2 loops, beside Checks"] += [live.tell("down"), live.tell("up")]
            requests["told changes"].append(askers.figures())
        loop.kill()
        bare.close()
        live.close()
        until("the server lets go of each Watch", lambda: descriptors(process), open_files[0], 60)
        calls = count + 2 * CHECKS * rounds
        until("each call has ended", lambda: [server.stats()[name] for name in ("connections", "calls")], [0, calls])
    print(f"\n{count} Watches: {memory[0]} KiB before them and {memory[1]} KiB with them, "
          f"{(memory[1] - memory[0]) * 1024 // count} bytes each; {open_files[0]} descriptors before them, {open_files[1]} with them, "
          f"{open_files[0]} after them; {calls} calls have ended")
    table("A change to all of them, milliseconds", ["median", "longest"],
          [(name, [median(each), max(each)]) for name, each in times.items()])
    table("Checks of one client beside them, microseconds", ["Checks a second", "median", "99th percentile", "longest"],
          [(name, [median(run.rate for run in runs), median(run.middle for run in runs), median(run.slow for run in runs),
                   max(run.longest for run in runs)]) for name, runs in requests.items()])


def memory(_):
    """The memory of the process as changes and Checks go on."""
    rows, made = [], 0
    with Places() as places:
        server = places.healthd("--threads", "2")
        session = server.session(timeout=60)
        for name, count in (("a first tenth", GROWTH // 10), ("the first half", GROWTH // 2), ("the second half", GROWTH // 2)):
            for _ in range(count // PIECE):
                session.send(b"down a\nup a\n" * (PIECE // 2))
                holds("each change is made", session.answers.read(5 * PIECE) == b"done\n" * PIECE)
                holds("each Check is answered", all(load.check(server.port).endswith(BODY) for _ in range(PIECE // 20)))
            made += count
            rows.append((name, [made, made // 20, kib(server.process)]))
        stats = numbers(session.ask("stats"))
        holds("each change is an entry", stats["entries"] == 3 + made, str(stats))
    table("Memory of `run` as changes and Checks go on", ["changes by then", "Checks", "KiB"], rows)


rounds, parts = int((sys.argv[1:] or ["3"])[0]), sys.argv[2:] or PARTS
if rounds < 1 or any(part not in PARTS for part in parts):
    sys.exit(__doc__)
print(f"{os.uname().machine}, {CORES} processors, load {os.getloadavg()[0]}, {rounds} rounds")
for part in parts:
    {"checks": checks, "grpc_go": grpc_go, "servers": servers_beside, "watches": watches, "memory": memory}[part](rounds)
