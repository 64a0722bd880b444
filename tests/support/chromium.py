"""Pages in Chromium, which is driven over its DevTools protocol: messages that end in a NUL, through two pipes."""
import json
import os
import subprocess


class Browser:
    """A Chromium of its own, whose files are in this folder."""

    def __init__(self, folder):
        self.folder, self.calls, self.events = folder, 0, []
        ours, theirs = os.pipe(), os.pipe()
        with open(f"{folder}/chromium.out", "w", encoding="utf-8") as out, open(f"{folder}/chromium.err", "w", encoding="utf-8") as err:
            self.process = subprocess.Popen(
                ["bash", "-c", f'exec "$@" 3<&{ours[0]} 4>&{theirs[1]}', "bash", "chromium", "--headless=new", "--no-sandbox",
                 "--remote-debugging-pipe", f"--user-data-dir={folder}/chromium", "--no-first-run", "--disable-gpu",
                 "--disable-dev-shm-usage", "--disable-breakpad", "--disable-background-networking",
                 "--disable-component-update", "--disable-sync", "about:blank"],
                pass_fds=(ours[0], theirs[1]), stdin=subprocess.DEVNULL, stdout=out, stderr=err, env={**os.environ, "HOME": folder})
        os.close(ours[0])
        os.close(theirs[1])
        self.to, self.of = os.fdopen(ours[1], "wb", 0), os.fdopen(theirs[0], "rb")

    def ask(self, method, session=None, **params):
        self.calls += 1
        message = {"id": self.calls, "method": method, "params": params, **({"sessionId": session} if session else {})}
        try:
            self.to.write(json.dumps(message).encode() + b"\0")
        except BrokenPipeError:
            self.has_ended()
        while (answer := json.loads(self.read())).get("id") != self.calls:
            self.events.append(answer)
        assert "error" not in answer, f"{method}: {answer['error']}"
        return answer["result"]

    def read(self):
        said = bytearray()
        while (byte := self.of.read(1)) != b"\0":
            if not byte:
                self.has_ended()
            said += byte
        return said

    def has_ended(self):
        with open(f"{self.folder}/chromium.err", encoding="utf-8") as file:
            said = file.read().split("\n")
        raise AssertionError(f"Chromium ended with status {self.process.wait(5)}: " + " ".join(said[-3:]).strip())

    def close(self):
        """Ends it. How long it takes for that is nothing that is checked."""
        try:
            if self.process.poll() is None:
                self.ask("Browser.close")
                self.process.wait(20)
        except (AssertionError, subprocess.TimeoutExpired):
            pass
        finally:
            self.process.kill()
            self.process.wait(20)
            self.to.close()
            self.of.close()


class Page:
    """A page of a browser, in which a script may run before its own. What it asks for, and what its console says, is kept."""

    def __init__(self, browser, url, script=""):
        self.browser = browser
        self.target = browser.ask("Target.createTarget", url="about:blank")["targetId"]
        self.session = browser.ask("Target.attachToTarget", targetId=self.target, flatten=True)["sessionId"]
        for domain in ("Page", "Network", "Log", "Runtime"):
            self.ask(f"{domain}.enable")
        self.ask("Page.addScriptToEvaluateOnNewDocument", source=script)
        self.ask("Page.navigate", url=url)

    def ask(self, method, **params):
        return self.browser.ask(method, self.session, **params)

    def value(self, script):
        answer = self.ask("Runtime.evaluate", expression=script, returnByValue=True, awaitPromise=True)
        return answer["result"].get("value")

    def events(self, method):
        """What it was told so far of this kind."""
        return [event["params"] for event in self.browser.events
                if event.get("method") == method and event.get("sessionId") == self.session]

    def close(self):
        self.browser.ask("Target.closeTarget", targetId=self.target)
