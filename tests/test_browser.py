"""The page of examples/, in Chromium, watches a service through nginx."""
import contextlib
import socket

import pytest

from support.chromium import Page
from support.nginx import wants_nginx
from support.waiting import until
from support.webs import flip
from support.wire import SERVICE

pytestmark = [pytest.mark.browser, wants_nginx]


@pytest.fixture
def page(nginx, browser):
    """The page of web1, which has been told that it serves."""
    with contextlib.closing(Page(browser, f"http://127.0.0.1:{nginx}/watch.html?service=web1")) as page:
        shows(page, "SERVING")
        yield page


def shows(page, *statuses):
    """Waits until it shows these statuses, which may take long where the machine is busy."""
    until(lambda: page.value("[...document.querySelectorAll('#told li')].map(told => told.textContent)"), [*statuses], 30)


def called(page, port, mode="cors"):
    """What comes of a call at a port: what kind of answer and its status, or the name of an error."""
    return page.value(f"""fetch('http://127.0.0.1:{port}{SERVICE}/Check', {{
        method: 'POST', mode: '{mode}', headers: {{'content-type': 'application/grpc-web+proto'}}, body: new Uint8Array(5),
    }}).then(response => response.type + ' ' + response.status, error => error.name)""")


def test_the_page_shows_each_change_before_the_next_is_made_and_then_forty_quick_ones_once_and_in_order(webs, page):
    assert webs.tell("down", "web1") == ("done", 0)
    shows(page, "SERVING", "NOT_SERVING")
    assert webs.tell("up", "web1") == ("done", 0)
    shows(page, "SERVING", "NOT_SERVING", "SERVING")
    flip(webs, "web1")
    shows(page, "SERVING", *["NOT_SERVING", "SERVING"] * 21)


def test_the_page_has_the_answers_of_its_own_origin_alone(webs, nginx, page):
    assert called(page, nginx) == "basic 200"
    # The server itself is another origin. It is asked, and the browser keeps its answer from the page.
    assert called(page, webs.port, "no-cors") == "opaque 0"
    assert called(page, webs.port) == "TypeError"
    with socket.socket() as taken:
        # Where nothing listens, nothing is reached.
        taken.bind(("127.0.0.1", 0))
        assert called(page, taken.getsockname()[1], "no-cors") == "TypeError"


def test_the_page_shows_the_trailers_where_the_server_stops(webs, page):
    page.value("""void (window.ended = new Promise(resolve => {
        const end = document.querySelector('#end');
        new MutationObserver(() => resolve(end.textContent)).observe(end, {childList: true});
    }))""")
    webs.stop()
    assert page.value("ended") == "grpc-status:14 grpc-message:watch ended"
