"""Chromium without a window, for tests: a page is opened, its buttons are clicked, and values are asked of it.

It is driven through a pair of pipes, by messages of the DevTools protocol, so nothing but Chromium itself is needed.
"""

import contextlib
import json
import os
import shutil
import subprocess
import tempfile
import time

SECONDS = 60
NAMES = ("chromium", "chromium-browser", "google-chrome")
CODES = {"ArrowRight": 39, "ArrowLeft": 37, "ArrowUp": 38, "ArrowDown": 40}


def program():
    """The path of Chromium; none where it is missing."""
    return next(filter(None, map(shutil.which, NAMES)), None)


class Tab:
    """A page that Chromium shows."""

    def __init__(self, requests, answers):
        self.requests, self.answers, self.left, self.number, self.session = requests, answers, b"", 0, None
        self.events = []
        target = self.ask("Target.createTarget", url="about:blank")["targetId"]
        self.session = self.ask("Target.attachToTarget", targetId=target, flatten=True)["sessionId"]
        self.ask("Page.enable")

    def received(self):
        """The next message."""
        while b"\0" not in self.left:
            more = os.read(self.answers, 1 << 20)
            if not more:
                raise RuntimeError("Chromium has ended")
            self.left += more
        message, _, self.left = self.left.partition(b"\0")
        return json.loads(message)

    def ask(self, method, **given):
        """Sends a request, and gives its answer."""
        self.number += 1
        request = {"id": self.number, "method": method, "params": given}
        if self.session:
            request["sessionId"] = self.session
        os.write(self.requests, json.dumps(request).encode() + b"\0")
        while True:
            message = self.received()
            if message.get("id") == self.number:
                if "error" in message:
                    raise RuntimeError(f"{method}: {message['error']}")
                return message["result"]
            self.events.append(message.get("method"))

    def value(self, expression):
        """The value of an expression in the page."""
        found = self.ask("Runtime.evaluate", expression=expression, returnByValue=True, awaitPromise=True)
        if "exceptionDetails" in found:
            raise RuntimeError(f"{expression}: {found['exceptionDetails']}")
        return found["result"].get("value")

    def wait(self, expression):
        """Waits until an expression is true."""
        end = time.monotonic() + SECONDS
        while not self.value(f"Boolean({expression})"):
            if time.monotonic() > end:
                raise RuntimeError(f"{SECONDS} seconds went by, and this is not true: {expression}")
            time.sleep(0.01)

    def load(self, address):
        """Opens a page, and waits until it is there. One that is open is left first, so that it is read anew."""
        for goal in ("about:blank", address):
            self.events = []
            self.ask("Page.navigate", url=goal)
            self.wait("document.readyState === 'complete' && location.href === " + json.dumps(goal))

    def click(self, name):
        """Clicks the element of this id with the mouse, where it is."""
        place = self.value(f"""(() => {{
            const element = document.getElementById({json.dumps(name)});
            element.scrollIntoView({{ block: 'center' }});
            const box = element.getBoundingClientRect();
            return [box.x + box.width / 2, box.y + box.height / 2];
        }})()""")
        for kind in ("mousePressed", "mouseReleased"):
            self.ask("Input.dispatchMouseEvent", type=kind, x=place[0], y=place[1], button="left", clickCount=1)

    def press(self, key):
        """Presses and releases a key."""
        for kind in ("keyDown", "keyUp"):
            self.ask("Input.dispatchKeyEvent", type=kind, key=key, code=key, windowsVirtualKeyCode=CODES[key])


def end(process, tab):
    """Ends Chromium: it is asked to, and terminated where it does not."""
    with contextlib.suppress(OSError, RuntimeError):
        if tab:
            tab.session = None
            tab.ask("Browser.close")
    try:
        process.wait(timeout=SECONDS / 6)
    except subprocess.TimeoutExpired:
        process.kill()
        process.wait()


@contextlib.contextmanager
def opened(chromium, address):
    """A page in a Chromium of its own, which ends with it."""
    to_read, requests = os.pipe()
    answers, to_write = os.pipe()
    room = tempfile.mkdtemp()
    words = [chromium, "--headless", "--no-sandbox", "--disable-gpu", "--no-first-run", "--remote-debugging-pipe",
             "--window-size=1400,1100", f"--user-data-dir={room}"]
    starter = ["/bin/sh", "-c", f'exec "$@" 3<&{to_read} 4>&{to_write}', "sh", *words]
    process = subprocess.Popen(starter, pass_fds=(to_read, to_write), stdin=subprocess.DEVNULL, stdout=subprocess.DEVNULL,
                               stderr=subprocess.DEVNULL)
    os.close(to_read)
    os.close(to_write)
    tab = None
    try:
        tab = Tab(requests, answers)
        tab.load(address)
        yield tab
    finally:
        end(process, tab)
        os.close(requests)
        os.close(answers)
        # processes of Chromium's own may still write there
        shutil.rmtree(room, ignore_errors=True)
