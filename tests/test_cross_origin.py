"""A page of another origin, in Chromium, sends lines to the places for sessions on TCP, and none of them is taken; nor is what curl sends."""
import contextlib
import http.server
import subprocess
import threading

import pytest

from support.chromium import Page
from support.curl import wants_curl
from support.lasting import lasting
from support.naming import rows
from support.relay import PATIENCE, Relay
from support.waiting import until

NO_SESSION = b"not a session\n"

# Lines that would change something at a place, were they taken.
LINES = rows([("control", "down a"), ("control", "stop"), ("report", "fail db")], lambda sort, line: f"{line} at the {sort} place")

# Each way in which a page reaches an address of another origin without asking it first.
WAYS = {
    "fetch": "fetch('{url}', {{method: 'POST', mode: 'no-cors', body: '\\n{line}\\n'}}).then(() => 'answered', error => error.name)",
    "a beacon": "String(navigator.sendBeacon('{url}', '\\n{line}\\n'))",
    "XMLHttpRequest": """new Promise(resolve => {{
        const request = new XMLHttpRequest();
        request.onloadend = () => resolve(String(request.status));
        request.open('POST', '{url}');
        request.send('\\n{line}\\n');
    }})""",
    "a form": """new Promise(resolve => {{
        document.body.innerHTML = '<iframe name=frame></iframe>'
            + '<form method=post enctype=text/plain target=frame action={url}><textarea name=a></textarea></form>';
        document.querySelector('textarea').value = '\\n{line}\\n';
        document.querySelector('form').submit();
        resolve('sent');
    }})""",
}


class Blank(http.server.BaseHTTPRequestHandler):
    """Serves the page of the other origin, on which there is nothing."""

    def do_GET(self):
        self.send_response(200)
        self.send_header("content-type", "text/html")
        self.end_headers()
        self.wfile.write(b"<!doctype html><title>another origin</title>")

    def log_message(self, *_):
        pass


def answered(relay, line):
    """What was answered on each connection on which the page has sent the line, once they have ended, and whether there is one."""
    with_line = [kept for kept in relay.carried if f"\n{line}".encode() in kept["asked"]]
    return sorted({kept["answered"] for kept in with_line if kept["ended"]}), bool(with_line)


@pytest.fixture(scope="module")
def page(browser):
    """A page of another origin."""
    with contextlib.ExitStack() as opened:
        origin = opened.enter_context(http.server.ThreadingHTTPServer(("127.0.0.1", 0), Blank))
        threading.Thread(target=origin.serve_forever, daemon=True).start()
        opened.callback(origin.shutdown)
        page = opened.enter_context(contextlib.closing(Page(browser, f"http://127.0.0.1:{origin.server_address[1]}/")))
        until(lambda: page.value("document.title"), "another origin")
        yield page


@pytest.fixture(scope="module")
def server(program):
    """One with both places on TCP, which nothing here changes."""
    with lasting(program, "--report", "127.0.0.1:0", control="127.0.0.1:0") as server:
        yield server


def place_of(server, sort):
    return {"control": server.control, "report": server.report}[sort]


@pytest.fixture
def unchanged(server):
    """Nothing is changed by what a test sends, and a session is still taken."""
    entries = server.stats()["entries"]
    yield
    assert server.stats()["entries"] == entries
    assert server.tell("check", "a") == ("serving", 0)


@pytest.mark.browser
@pytest.mark.parametrize("way", WAYS)
@pytest.mark.parametrize("sort, line", LINES)
def test_what_a_page_of_another_origin_sends_is_no_session(server, page, unchanged, sort, line, way):
    with contextlib.closing(Relay(place_of(server, sort))) as relay:
        page.value(WAYS[way].format(url=f"http://127.0.0.1:{relay.port}/", line=line))
        until(lambda: answered(relay, line), ([NO_SESSION], True), PATIENCE)


@wants_curl
@pytest.mark.parametrize("sort, line", LINES)
def test_what_curl_sends_is_no_session(server, unchanged, sort, line):
    command = ["curl", "--silent", "--http0.9", "--max-time", "20", "--data-binary", f"\n{line}\n", f"http://{place_of(server, sort)}/"]
    assert subprocess.run(command, capture_output=True, timeout=30).stdout == NO_SESSION


@wants_curl
def test_a_session_is_still_taken_after_what_was_no_session(start):
    server = start("--report", "127.0.0.1:0", control="127.0.0.1:0")
    for place in (server.control, server.report):
        command = ["curl", "--silent", "--http0.9", "--max-time", "20", "--data-binary", "\ndown a\n", f"http://{place}/"]
        assert subprocess.run(command, capture_output=True, timeout=30).stdout == NO_SESSION
    assert server.tell("down", "a") == ("done", 0)
