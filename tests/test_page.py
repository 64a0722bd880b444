"""The page of `--plain` in Chromium, as its services change, and beside a server that is frozen, killed, stopped or started again."""
import contextlib
import functools
import time

import pytest

from support import waiting
from support.chromium import Page
from support.process import frozen
from support.relay import Relay
from support.serving import free_port
from support.webs import flip

pytestmark = [pytest.mark.browser, pytest.mark.timed]
until = functools.partial(waiting.until, patience=30)  # what a browser shows may take long where the machine is busy

# Six services, of which the first four are watched; one is absent, and one has a name that a page could take for markup.
ODD = "<b>a</b>&amp;\"'\\"
SCRIPT = f"""catalogue web1 web2 db - job {ODD} gone
register web1 manual
register web2 manual
register db threshold 2
register - depends web1 db
register job threshold 2 1 unknown
register {ODD} manual
"""
AT_FIRST = [["web1", "serving"], ["web2", "serving"], ["db", "serving"], ["whole server", "serving"], ["job", "unknown"],
            [ODD, "serving"], ["gone", "absent"]]
WATCHED = ["web1", "web2", "db", ""]
FLIPS = ["not_serving", "serving"] * 20
# The page takes all statuses away within three seconds, and it, and what is here to see it, may be late.
LOST, LATE = 3, 1.5

# A page that is patient takes no answer for a loss that comes late because the machine is busy.
PATIENT = """{
    window.patient = true;
    const timeout = AbortSignal.timeout.bind(AbortSignal);
    AbortSignal.timeout = time => timeout(patient ? 60000 : time);
    setInterval(() => { if (patient && typeof heard !== 'undefined') heard = performance.now(); }, 100);
}"""
# What a screen reader is told, apart from the heading.
PARTS = {("table", "Services"), ("columnheader", "Status"), ("rowheader", "web1"), ("cell", "serving"), ("checkbox", "each change of web1"),
         ("image", "40 changes since the page was opened")}
# The least ratio of contrast (WCAG 2) between a text of the page and what is behind it.
CONTRAST = """(() => {
    const numbers = color => color.match(/[\\d.]+/g).map(Number);
    const light = color => numbers(color).slice(0, 3).map(part => part / 255)
        .map(part => part <= 0.04045 ? part / 12.92 : ((part + 0.055) / 1.055) ** 2.4)
        .reduce((sum, part, at) => sum + part * [0.2126, 0.7152, 0.0722][at], 0);
    const behind = element => {
        for (; element; element = element.parentElement) {
            const color = getComputedStyle(element).backgroundColor;
            if (numbers(color)[3] !== 0) return color;
        }
    };
    return Math.min(...[...document.querySelectorAll('h1, h2, p, th, td, li, time, b, .status')]
        .filter(element => element.textContent.trim()).map(element => {
            const [one, other] = [light(getComputedStyle(element).color), light(behind(element))].sort((a, b) => b - a);
            return (one + 0.05) / (other + 0.05);
        }));
})()"""


class ServicesPage(Page):
    """The page of the server at this port."""

    def __init__(self, browser, port):
        self.address = f"http://127.0.0.1:{port}"
        super().__init__(browser, f"{self.address}/", PATIENT)

    def each(self, selector, value="it.textContent"):
        """What an expression makes of each element that is selected, in their order."""
        return self.value(f"[...document.querySelectorAll('{selector}')].map(it => {value})")

    def text(self, selector):
        return self.each(selector)[0]

    def statuses(self):
        return self.each("#services tr", "[...it.cells].slice(0, 2).map(cell => cell.textContent)")

    def status(self, service):
        return dict(self.statuses()).get(service)

    def changes_of(self, service):
        """The statuses that a service was shown to change to, in order."""
        changes = self.each("#changes li", "['b', '.status'].map(part => it.querySelector(part).textContent)")
        return [status for name, status in reversed(changes) if name == service]

    def notes(self):
        """What stands beside each box, where a service is not watched that was chosen."""
        return self.each("#services .each span")

    def watched(self, since=-1):
        """The services whose Watches are open, and were told a status after this reading of the page's clock."""
        return self.value(f"[...rows.values()].filter(row => row.watch && row.told > {since}).map(row => row.name)")

    def asked(self):
        """The addresses that it has asked for so far."""
        self.value("")  # What it did before this is heard of before the answer.
        return [event["request"]["url"] for event in self.events("Network.requestWillBeSent")]

    def looks(self):
        return sum(url.endswith("/services") for url in self.asked())

    def looks_again(self, times=1):
        enough = self.looks() + times
        until(lambda: self.looks() >= enough, True)

    def is_patient(self, is_so):
        """Whether it is, from its next look on."""
        self.value("patient = true" if is_so else "patient = false")
        self.looks_again()

    def loses_all(self, within):
        """Waits until it shows no status any more, which it says. By its own clock that is in time after the last answer."""
        begins = time.monotonic() - self.value("performance.now() - heard") / 1000
        until(lambda: {status for _, status in self.statuses()}, {"lost"})
        within.took(self.value("Math.max(...[...rows.values()].map(row => row.strip.lastChild.began)) - heard") / 1000, LOST + LATE, begins)
        assert self.text("#sign").startswith("Connection lost")
        assert self.text("title").startswith("lost")

    def stays_lost(self):
        """It shows no other change while it looks twice more."""
        changes = len(self.each("#changes li"))
        self.looks_again(2)
        assert len(self.each("#changes li")) == changes

    def close(self):
        """Closes it. It has asked its own server alone, its policy has forbidden it nothing, and it has thrown nothing."""
        asked = {url.rsplit("/", 1)[0] for url in self.asked()}
        super().close()
        assert asked <= {self.address, f"{self.address}/grpc.health.v1.Health", "data:,"}
        entries = [event["entry"] for event in self.events("Log.entryAdded")]
        assert [entry["text"] for entry in entries if entry["source"] in ("security", "violation")] == []
        assert [event["exceptionDetails"]["text"] for event in self.events("Runtime.exceptionThrown")] == []


@pytest.fixture
def opened(start, browser):
    """Opens the page at a port. It is closed before the servers end."""
    with contextlib.ExitStack() as pages:
        yield lambda port: pages.enter_context(contextlib.closing(ServicesPage(browser, port)))


@pytest.fixture
def server(start):
    return start("--plain", "127.0.0.1:0", script=SCRIPT)


@pytest.fixture
def page(server, opened):
    """The page of the server, once it shows each service and watches the first four."""
    page = opened(server.plain)
    shows_all(server, page)
    return page


def shows_all(server, page):
    """It shows each service as the script leaves it, and the server says that four are watched."""
    until(page.statuses, AT_FIRST)
    until(lambda: server.stats()["watches"], len(WATCHED))


def test_each_service_is_shown_with_its_status_and_nothing_has_changed_yet(server, page):
    assert page.each("#changes li") == []
    assert page.text("title") == f"5 of 7 serving \u00b7 127.0.0.1:{server.plain}"
    assert page.text("#sign").startswith("Connected")
    assert page.text("#services .since").startswith("before ")


def test_forty_quick_changes_are_shown_once_and_in_order_and_so_are_those_of_what_depends_on_it(server, page):
    flip(server, "web1")
    until(lambda: page.changes_of("web1"), FLIPS)
    until(lambda: page.changes_of("whole server"), FLIPS)
    assert not page.text("#services .since").startswith("before ")
    assert len(page.each("#services tr:first-child .strip i")) == 41


def test_a_change_of_a_service_that_is_not_watched_is_shown_too(server, page):
    assert server.tell("pass", "job") == ("done", 0)
    until(lambda: page.status("job"), "serving")


def test_a_service_that_is_retired_is_absent_until_it_is_registered(server, page):
    assert server.tell("retire", "web2") == ("done", 0)
    until(lambda: page.status("web2"), "absent")
    assert server.tell("register", "web2", "manual") == ("done", 0)
    until(lambda: page.changes_of("web2"), ["absent", "serving"])


def test_where_one_more_is_chosen_the_one_that_was_chosen_first_is_not_watched_any_more(server, page):
    page.value("document.querySelector('#services tr:nth-child(6) input').click()")
    until(lambda: page.each("#services input", "it.checked"), [False, True, True, True, False, True, False])
    until(lambda: page.watched(0), ["web2", "db", "", ODD])
    until(lambda: server.stats()["watches"], len(WATCHED))
    flip(server, ODD)
    until(lambda: page.changes_of(ODD), FLIPS)


# What it is for someone who does not see it, and for a phone, in the dark and in the light.

@pytest.fixture
def changed(server, page):
    """The page after forty changes. It shows each sort of status, apart from a loss."""
    flip(server, "web1")
    until(lambda: page.changes_of("web1"), FLIPS)
    return page


def test_a_screen_reader_is_told_of_each_part_and_of_changes_and_a_loss(server, changed):
    nodes = [node for node in changed.ask("Accessibility.getFullAXTree")["nodes"] if not node["ignored"]]
    told = {(node["role"]["value"], node.get("name", {}).get("value", "")) for node in nodes}
    assert {*PARTS, ("heading", f"Services of 127.0.0.1:{server.plain}")} - told == set()
    assert changed.each("[role=status]", "it.id") == ["sign", "said"]


def test_its_texts_have_contrast_in_the_light_and_in_the_dark(changed):
    backs, contrasts = {}, {}
    for scheme in ("light", "dark"):
        changed.ask("Emulation.setEmulatedMedia", features=[{"name": "prefers-color-scheme", "value": scheme}])
        backs[scheme], contrasts[scheme] = changed.each("body", "getComputedStyle(it).backgroundColor"), changed.value(CONTRAST)
    assert backs["light"] != backs["dark"]
    assert min(contrasts.values()) >= 4.5, contrasts


def test_it_is_no_wider_than_a_screen(changed):
    widths = {}
    for width in (320, 390, 820, 1200):
        changed.ask("Emulation.setDeviceMetricsOverride", width=width, height=740, deviceScaleFactor=1, mobile=width < 800)
        widths[width] = changed.value("document.documentElement.scrollWidth")
    assert {width: found for width, found in widths.items() if found > width} == {}


# A server that is frozen or gone. To see that, a page is no more patient than it is by itself.

def test_no_status_of_a_frozen_server_is_shown_and_each_is_once_it_goes_on(server, page, within):
    page.is_patient(False)
    with frozen(server.process):
        page.loses_all(within)
        page.stays_lost()
        page.is_patient(True)
        lost = page.changes_of("web1")
        thawed = page.value("performance.now()")
    until(page.statuses, AT_FIRST)
    # The server may count those for a while that the page has left meanwhile.
    until(lambda: page.watched(thawed), WATCHED)
    until(lambda: server.stats()["watches"], len(WATCHED))
    assert lost[-1] == "lost" and page.changes_of("web1") == [*lost, "serving"]
    flip(server, "web1")
    until(lambda: page.changes_of("web1"), [*lost, "serving", *FLIPS])


def test_no_status_of_a_killed_server_is_shown_and_those_of_another_one_at_its_place_are(start, opened, within):
    place = f"127.0.0.1:{free_port()}"
    server = start("--plain", place, script=SCRIPT)
    assert place == f"127.0.0.1:{server.plain}"
    page = opened(server.plain)
    shows_all(server, page)
    page.is_patient(False)
    server.kill()
    page.loses_all(within)
    page.stays_lost()
    page.is_patient(True)
    server = start("--plain", place, script="catalogue other -\nregister other manual\nregister - depends other\n")
    until(page.statuses, [["other", "serving"], ["whole server", "serving"]])
    until(lambda: server.stats()["watches"], 2)


def test_no_status_of_a_server_that_is_told_to_stop_is_shown(server, page, within):
    page.is_patient(False)
    assert server.tell("stop") == ("stopping", 0)
    page.loses_all(within)
    assert server.end()[0] == 0


# Watches that are elsewhere, that are too many, or that hang.

def test_a_second_page_of_a_browser_has_the_watches_until_the_first_one_is_turned_to(server, page, opened):
    beside = opened(server.plain)
    until(lambda: [page.watched(), beside.watched()], [[], WATCHED])
    until(page.notes, [" in another page"] * 4 + [""] * 3)
    until(lambda: server.stats()["watches"], len(WATCHED))
    assert server.tell("down", "web2") == ("done", 0)
    until(lambda: [page.status("web2"), beside.status("web2")], ["not_serving"] * 2)
    assert server.tell("up", "web2") == ("done", 0)
    page.ask("Page.bringToFront")
    page.value("dispatchEvent(new Event('focus'))")
    until(lambda: [page.watched(), beside.watched()], [WATCHED, []])


def test_where_a_server_has_fewer_watches_than_a_page_wants_looks_tell_the_statuses(start, opened):
    server = start("--plain", "127.0.0.1:0", "--connections", "12", "--watches", "2", script=SCRIPT)
    page = opened(server.plain)
    until(page.statuses, AT_FIRST)
    until(lambda: sorted(page.notes()), [""] * 5 + [" Watch ended"] * 2)
    for word, shown in (("down", "not_serving"), ("up", "serving")):
        assert server.tell(word, "web1") == ("done", 0)
        until(lambda: page.status("web1"), shown)
    server.stop()  # beside the page


def test_a_watch_that_hangs_while_looks_are_answered_is_not_believed_after_two_of_them(server, opened):
    with contextlib.closing(Relay(f"127.0.0.1:{server.plain}")) as relay:
        page = opened(relay.port)
        shows_all(server, page)
        relay.holds = b"/Watch"  # whose answers it does not pass on any more
        assert server.tell("down", "web1") == ("done", 0)
        looks = page.looks()  # of which one may still be answered with the status before
        until(lambda: page.status("web1"), "not_serving")
        assert page.looks() - looks <= 3
        until(lambda: any(kept["held"] for kept in relay.carried), True)
