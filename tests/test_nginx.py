"""nginx, with the configuration of examples/, cuts no Watch that is silent. What else it passes on is in test_curl.py and test_browser.py."""
import contextlib

from support.curl import Watch, wants_curl
from support.nginx import nginx_before, wants_nginx
from support.wire import NOT_SERVING, SERVING

pytestmark = [wants_nginx, wants_curl]

PARTIAL = 18  # with this status curl ends where a body ends too early


def test_a_watch_is_told_a_change_after_a_silence_for_which_nginx_cuts_one_without_its_read_timeout(webs, nginx, sources, folder):
    with contextlib.closing(Watch(nginx, "web2")) as watch:
        watch.is_told(SERVING)
        with nginx_before(webs, sources, folder, without="proxy_read_timeout 1d;") as hasty, contextlib.closing(Watch(hasty, "web2")) as cut:
            cut.is_told(SERVING)
            # It was opened after the other, and so was silent for less time.
            assert cut.rest() == (b"", PARTIAL)
        assert webs.tell("down", "web2") == ("done", 0)
        watch.is_told(NOT_SERVING)
