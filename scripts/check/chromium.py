"""Chromium without a window, driven by its own protocol over two pipes."""
import base64
import contextlib
import json
import os
import shutil
import subprocess
import tempfile

from common.daemon import come_to

PROGRAMS = ("chromium", "chromium-browser", "google-chrome")
# The zone in which the reader is.
ZONE = "Europe/Berlin"
# How many seconds a page may take until it shows what is due.
PATIENCE = 20
WORDS = (
    "--headless=new", "--no-sandbox", "--disable-gpu", "--disable-dev-shm-usage", "--no-first-run", "--hide-scrollbars",
    "--disable-background-networking", "--disable-component-update", "--disable-sync", "--remote-debugging-pipe",
    "--force-color-profile=srgb", "--disable-lcd-text", "--lang=en-US",
)
# What a key is called on the wire, and its text where it has one.
KEYS = {
    "Tab": (9, None), "Enter": (13, "\r"), " ": (32, " "), "ArrowRight": (39, None), "ArrowLeft": (37, None),
    "Home": (36, None), "End": (35, None), "ArrowDown": (40, None),
}


def path_of():
    return next(filter(None, map(shutil.which, PROGRAMS)), None)


class Tab:
    """A tab: what it was told, and what it tells of itself."""

    def __init__(self, send_to, read_from):
        self.send_to, self.read_from = send_to, read_from
        self.last, self.rest, self.events, self.session = 0, b"", [], None

    def ask(self, method, **given):
        self.last += 1
        session = {"sessionId": self.session} if self.session else {}
        self.send_to.write(json.dumps({"id": self.last, "method": method, "params": given, **session}).encode() + b"\0")
        self.send_to.flush()
        while (told := self.next_told()).get("id") != self.last:
            self.events.append(told)
        if "error" in told:
            raise RuntimeError(f"{method}: {told['error']}")
        return told["result"]

    def next_told(self):
        while b"\0" not in self.rest:
            piece = os.read(self.read_from, 1 << 20)
            if not piece:
                raise EOFError("chromium ended")
            self.rest += piece
        told, self.rest = self.rest.split(b"\0", 1)
        return json.loads(told)

    def opened(self, **how):
        """Makes the tab, and has it tell of requests, faults and its log."""
        target = self.ask("Target.createTarget", url="about:blank", **how)["targetId"]
        self.session = self.ask("Target.attachToTarget", targetId=target, flatten=True)["sessionId"]
        for domain in ("Page", "Runtime", "Network", "Log", "DOM", "Accessibility"):
            self.ask(f"{domain}.enable")
        watch = "window.broken = []; addEventListener('securitypolicyviolation', (it) => broken.push(it.violatedDirective));"
        self.ask("Page.addScriptToEvaluateOnNewDocument", source=watch)
        self.ask("Emulation.setTimezoneOverride", timezoneId=ZONE)

    def go(self, address, shown=None):
        """Opens an address, and waits until the page is there under it, or under the one that it then shows."""
        self.ask("Page.navigate", url=address)
        self.until(f"document.readyState === 'complete' && location.href === {json.dumps(shown or address)}", True)

    def value(self, expression):
        told = self.ask("Runtime.evaluate", expression=expression, returnByValue=True, awaitPromise=True)
        if "exceptionDetails" in told:
            details = told["exceptionDetails"]
            return "fault: " + details.get("exception", {}).get("description", details["text"])
        return told["result"].get("value")

    def until(self, expression, due):
        """The value of an expression once it is due, or what it is after all patience."""
        return come_to(lambda: self.value(expression), due, PATIENCE, pause=0.05)

    def press(self, key, count=1, modifiers=0):
        number, text = KEYS[key]
        for _ in range(count):
            how = {"key": key, "code": "Space" if key == " " else key, "windowsVirtualKeyCode": number, "modifiers": modifiers}
            self.ask("Input.dispatchKeyEvent", type="keyDown", **how, **({"text": text} if text else {}))
            self.ask("Input.dispatchKeyEvent", type="keyUp", **how)

    def type(self, text):
        self.ask("Input.insertText", text=text)

    def sized(self, width, height, is_phone=False):
        self.ask("Emulation.setDeviceMetricsOverride", width=width, height=height, deviceScaleFactor=1, mobile=is_phone)

    def colored(self, scheme):
        self.ask("Emulation.setEmulatedMedia", features=[{"name": "prefers-color-scheme", "value": scheme}])

    def picture(self):
        told = self.ask("Page.captureScreenshot", format="png", captureBeyondViewport=True, optimizeForSpeed=False)
        return base64.b64decode(told["data"])

    def told_of(self, method):
        """What the tab told by events of this name."""
        self.value("0")
        return [event["params"] for event in self.events if event.get("method") == method]


@contextlib.contextmanager
def tab():
    """A tab of a new browser, whose folder goes with it."""
    to_browser, send_to = os.pipe()
    read_from, from_browser = os.pipe()

    def place():
        # The browser reads from descriptor 3 and writes to 4, which either of ours may be.
        for descriptor in (os.dup2(os.dup(to_browser), 30), os.dup2(os.dup(from_browser), 31)):
            os.dup2(descriptor, descriptor - 27)

    with tempfile.TemporaryDirectory(ignore_cleanup_errors=True) as folder:
        command = [path_of(), *WORDS, f"--user-data-dir={folder}", "about:blank"]
        quiet = {"stdin": subprocess.DEVNULL, "stdout": subprocess.DEVNULL, "stderr": subprocess.DEVNULL}
        run = subprocess.Popen(command, preexec_fn=place, close_fds=False, env={**os.environ, "HOME": folder}, **quiet)
        os.close(to_browser)
        os.close(from_browser)
        try:
            with os.fdopen(send_to, "wb") as stream:
                made = Tab(stream, read_from)
                made.opened()
                yield made
        finally:
            run.terminate()
            run.wait()
            os.close(read_from)
