"""Takes the pictures of the page, docs/page.png in the light and docs/page-dark.png, of a server whose services change for 20 seconds.

    scripts/page_picture.py           writes them
    scripts/page_picture.py FOLDER    writes them there, and page-phone.png
"""
import base64
import contextlib
import os
import sys
import tempfile
import time
from pathlib import Path

ROOT = Path(__file__).resolve().parent.parent
sys.path.insert(0, f"{ROOT}/tests")

from support.chromium import Browser, Page  # noqa: E402
from support.lasting import lasting  # noqa: E402
from support.program import Program  # noqa: E402

PROGRAM = Program(os.environ.get("HEALTHD", ROOT / "out/healthd"))
FOLDER = sys.argv[1] if len(sys.argv) > 1 else ROOT / "docs"
SCRIPT = """catalogue api web1 web2 db backup -
register web1 manual
register web2 manual
register db threshold 2
register backup threshold 2 1 unknown
register - depends web1 db
"""
# What is changed, and for how many seconds it stays so.
STORY = [("", 3), ("fail db\nfail db", 2), ("pass db", 3), ("down web2", 4), ("up web2", 1), ("down web1\nup web1\n" * 3, 2),
         ("down web1", 2), ("up web1", 2), ("down web2", 2)]


def picture(page, name, width, scheme):
    page.ask("Emulation.setEmulatedMedia", features=[{"name": "prefers-color-scheme", "value": scheme}])
    page.ask("Emulation.setDeviceMetricsOverride", width=width, height=700, deviceScaleFactor=1, mobile=width < 800)
    time.sleep(0.3)
    height = min(page.value("document.querySelector('main').offsetHeight"), 1600)
    taken = page.ask("Page.captureScreenshot", clip={"x": 0, "y": 0, "width": width, "height": height, "scale": 1}, captureBeyondViewport=True)
    with open(f"{FOLDER}/{name}.png", "wb") as file:
        file.write(base64.b64decode(taken["data"]))


with tempfile.TemporaryDirectory(prefix="healthd-picture-", dir="/tmp", ignore_cleanup_errors=True) as folder, \
        lasting(PROGRAM, "--plain", "127.0.0.1:0", script=SCRIPT) as server, contextlib.closing(Browser(folder)) as browser:
    page = Page(browser, f"http://127.0.0.1:{server.plain}/")
    page.ask("Emulation.setTimezoneOverride", timezoneId="UTC")
    time.sleep(2)
    for lines, seconds in STORY:
        for line in lines.splitlines():
            server.tell(*line.split())
        time.sleep(seconds)
    picture(page, "page", 1200, "light")
    picture(page, "page-dark", 1200, "dark")
    if len(sys.argv) > 1:
        picture(page, "page-phone", 390, "dark")
