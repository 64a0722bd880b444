"""HAProxy by the configurations of examples/haproxy, of which people take copies: a server is taken out and put back as healthd is told, while
requests run. It is also out while healthd is frozen, or gone."""
import contextlib
import time
from typing import NamedTuple

import pytest

from support.balancer import Balancer, Load, Web, wants_haproxy
from support.process import frozen
from support.waiting import until

pytestmark = [wants_haproxy, pytest.mark.timeout(300)]

SCRIPT = "catalogue web1 web2 job -\nregister - manual\nregister web1 manual\nregister web2 manual\nregister job threshold 2 1 unknown\n"
# A check comes each second, two count, and one that is not answered takes two seconds more: a slow machine has time for many.
PATIENCE = 60


class Kind(NamedTuple):
    """A configuration, whether a healthd is beside each web server or one knows both, and how the last check of a server has ended that is up,
    and of one that healthd says is down. `connects`: the web server is asked for a connection too."""
    configuration: str
    beside_each: bool
    up: str
    down: str
    connects: bool = True
    changes: tuple = ()


BY_CHECKS = {"haproxy.cfg": Kind("haproxy.cfg", True, "L7OK", "L7RSP"),
             "haproxy-services.cfg": Kind("haproxy-services.cfg", False, "L7OK", "L7RSP")}
BY_GETS = {"haproxy-httpchk.cfg": Kind("haproxy-httpchk.cfg", True, "L7OK", "L7STS", connects=False),
           "haproxy-plain.cfg": Kind("haproxy-plain.cfg", False, "L4OK", "L7STS"),
           "haproxy-plain.cfg by HTTP/1.0": Kind("haproxy-plain.cfg", False, "L4OK", "L7STS", changes=((" ver HTTP/1.1 hdr host healthd\n", "\n"),))}
ALL = {**BY_CHECKS, **BY_GETS}


class Farm(NamedTuple):
    """Two web servers behind an HAProxy, and the servers that it asks, the first of which knows web1 as this service."""
    kind: Kind
    servers: list
    service: str
    webs: dict
    balancer: Balancer

    def tell(self, *words):
        assert self.servers[0].tell(*words) == ("done", 0)

    def becomes(self, server, *state):
        until(lambda: self.balancer.state(server), state, PATIENCE)

    def is_up(self, server):
        self.becomes(server, "UP", self.kind.up)

    def becomes_down_by(self, number):
        """web1 is down by what healthd says, which has this number where it is asked by a GET."""
        self.becomes("web1", "DOWN", self.kind.down)
        if self.kind in BY_GETS.values():
            until(lambda: self.balancer.stats("web1")["check_code"], number, PATIENCE)


def each(kinds):
    return pytest.mark.parametrize("farm", kinds.values(), ids=kinds, indirect=True)


@pytest.fixture
def farm(request, start, sources, folder):
    kind = request.param
    servers = [start("--threads", "2", "--plain", "127.0.0.1:0", script=SCRIPT)]
    calls, gets = servers[0].port, servers[0].plain
    pairs = [*kind.changes, ("port 8081", f"port {gets}") if kind in BY_GETS.values() else ("port 8080", f"port {calls}")]
    if kind.beside_each:
        # That of web2 has the same ports, as on a machine of its own.
        servers.append(start("--threads", "1", "--plain", f"127.0.0.2:{gets}", listen=f"127.0.0.2:{calls}", script=SCRIPT))
    else:
        pairs.append(("addr 192.0.2.10 ", "addr 127.0.0.1 "))
    with contextlib.ExitStack() as opened:
        webs = {name: opened.enter_context(contextlib.closing(Web(name, host))) for name, host in (("web1", "127.0.0.1"), ("web2", "127.0.0.2"))}
        for name, there in (("web1", "192.0.2.11:80\n"), ("web2", "192.0.2.12:80\n")):
            pairs.append((there, f"{webs[name].host}:{webs[name].port}\n"))
        balancer = opened.enter_context(contextlib.closing(Balancer(sources / "examples/haproxy" / kind.configuration, folder, pairs)))
        until(balancer.is_open, True, PATIENCE)
        farm = Farm(kind, servers, "-" if kind.beside_each else "web1", webs, balancer)
        farm.is_up("web1")
        farm.is_up("web2")
        yield farm


def shares(load, webs, since):
    """Each web server answers requests that began then or later."""
    until(lambda: [name for name in webs if load.since(since).count(name) <= 50], [], PATIENCE)


@each(ALL)
def test_a_server_is_taken_out_and_put_back_by_tell_and_no_request_is_lost(farm):
    webs, balancer = farm.webs, farm.balancer
    with Load(balancer.port) as load:
        shares(load, webs, since=0)
        farm.tell("down", farm.service)
        farm.becomes_down_by("503")
        down = time.monotonic()
        # Once its last request is answered the web server may go: nobody misses it.
        until(lambda: balancer.stats("web1")["scur"], "0", PATIENCE)
        webs["web1"].close()
        until(lambda: len(load.since(down)) > 100, True, PATIENCE)
        assert set(load.since(down)) == {"web2"}
        farm.is_up("web2")  # one check of it may have been late, which is not the next
        if not farm.kind.connects:
            webs["web1"].open()
        farm.tell("up", farm.service)
        if farm.kind.connects:
            farm.becomes("web1", "DOWN", "L4CON")
            webs["web1"].open()
        farm.is_up("web1")
        shares(load, webs, since=time.monotonic())
    answers = load.since(0)
    assert len(answers) > 100 and [answer for answer in answers if answer not in webs] == []


@each({name: kind for name, kind in ALL.items() if kind.connects})
def test_a_web_server_that_takes_no_connections_is_down_until_it_does(farm):
    farm.webs["web1"].close()
    farm.becomes("web1", "DOWN", "L4CON")
    farm.webs["web1"].open()
    farm.is_up("web1")


@each(BY_GETS)
def test_a_server_whose_service_is_retired_is_down_until_it_is_registered(farm):
    farm.tell("retire", farm.service)
    farm.becomes_down_by("404")
    farm.tell("register", farm.service, "manual")
    farm.is_up("web1")


@each(BY_GETS)
def test_a_server_is_down_while_its_healthd_is_frozen(farm):
    with frozen(farm.servers[0].process):
        until(lambda: farm.balancer.state("web1")[0], "DOWN", PATIENCE)
    farm.is_up("web1")


@each(ALL)
def test_haproxy_does_not_keep_healthd_from_its_end_after_which_its_server_is_down(farm):
    for server in farm.servers:
        server.stop()
    farm.becomes("web1", "DOWN", "L4CON")
