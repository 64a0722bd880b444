"""curl makes each kind of call, of a server itself and through nginx, and gets the bytes of the standards."""
import contextlib

import pytest

from support.curl import Watch, checked, wants_curl
from support.nginx import wants_nginx
from support.webs import flip
from support.wire import NOT_SERVING, OK, SERVING, frame, status, trailers

pytestmark = wants_curl

CHECKS = {
    "SERVING": ("web1", status(SERVING) + OK),
    "the whole server": ("", status(SERVING) + OK),
    # It is 0, the default of its field, which is not written: the message is empty.
    "UNKNOWN": ("job", frame(b"") + OK),
    "an unknown service": ("nobody", trailers("grpc-status:5", "grpc-message:unknown service")),
}


@pytest.fixture(params=["directly", pytest.param("through nginx", marks=wants_nginx)])
def port(request, webs):
    return webs.port if request.param == "directly" else request.getfixturevalue("nginx")


@pytest.fixture
def watch(port):
    """A Watch of web1, which has been told that it serves."""
    with contextlib.closing(Watch(port, "web1")) as watch:
        watch.is_told(SERVING)
        yield watch


@pytest.mark.parametrize("name, answer", CHECKS.values(), ids=CHECKS)
def test_a_check_gets_a_frame_of_the_status_and_one_of_the_trailers(port, name, answer):
    assert checked(port, name) == (200, answer)


def test_a_check_gets_the_status_that_was_told_last(webs, port):
    assert webs.tell("down", "web1") == ("done", 0)
    assert checked(port, "web1") == (200, status(NOT_SERVING) + OK)


def test_a_check_over_http_1_0_is_refused(webs):
    assert checked(webs.port, "web1", "--http1.0")[0] == 505


def test_a_watch_is_told_each_change_before_the_next_is_made(webs, watch):
    for word, number in (("down", NOT_SERVING), ("up", SERVING)):
        assert webs.tell(word, "web1") == ("done", 0)
        watch.is_told(number)


def test_a_watch_is_told_forty_quick_changes_once_and_in_order_and_ends_by_its_trailers_where_the_server_stops(webs, watch):
    flip(webs, "web1")
    watch.is_told(*[NOT_SERVING, SERVING] * 20)
    webs.stop()
    assert watch.rest() == (trailers("grpc-status:14", "grpc-message:watch ended"), 0)
