"""Drives Debian's headless Chromium over a pipe, by its DevTools protocol, for bench/page."""
import base64
import json
import os
import select
import subprocess
import time

LONGEST = 30


# The middle of an element, once it is in view.
MIDDLE = """((element) => {{
    element.scrollIntoView({{ block: 'center' }});
    const box = element.getBoundingClientRect();
    return [box.x + box.width / 2, box.y + box.height / 2];
}})({})"""


class Chromium:
    """A running Chromium with one page."""

    def __init__(self, folder):
        self.number = 0
        self.unread = b""
        self.events = []
        to_browser, self.out = os.pipe()
        self.into, from_browser = os.pipe()
        # Chromium reads from descriptor 3 and writes to descriptor 4.
        script = f'exec chromium "$@" 3<&{to_browser} 4>&{from_browser}'
        options = ["--headless=new", "--no-sandbox", "--remote-debugging-pipe", "--disable-gpu", "--hide-scrollbars"]
        # No request but those of the page.
        options += ["--no-first-run", "--disable-background-networking", "--disable-component-update", "--disable-sync"]
        self.process = subprocess.Popen(
            ["bash", "-c", script, "chromium", *options, f"--user-data-dir={folder}"],
            pass_fds=(to_browser, from_browser),
            stderr=subprocess.DEVNULL,
        )
        os.close(to_browser)
        os.close(from_browser)
        self.session = None
        target = self.send("Target.createTarget", url="about:blank")["targetId"]
        self.session = self.send("Target.attachToTarget", targetId=target, flatten=True)["sessionId"]
        for domain in ("Page", "Runtime", "Network", "Log"):
            self.send(f"{domain}.enable")

    def send(self, method, **params):
        """Sends a command and gives its result."""
        self.number += 1
        message = {"id": self.number, "method": method, "params": params}
        if self.session:
            message["sessionId"] = self.session
        data = json.dumps(message).encode() + b"\0"
        while data:
            data = data[os.write(self.out, data) :]
        while True:
            reply = self.receive(time.monotonic() + LONGEST)
            if reply.get("id") == self.number:
                if "error" in reply:
                    raise RuntimeError(f"{method}: {reply['error']['message']}")
                return reply["result"]
            self.events.append(reply)

    def receive(self, end):
        """The next message, until a moment."""
        while b"\0" not in self.unread:
            if not select.select([self.into], [], [], max(0, end - time.monotonic()))[0]:
                raise TimeoutError("Chromium doesn't answer")
            part = os.read(self.into, 1 << 20)
            if not part:
                raise EOFError("Chromium ended")
            self.unread += part
        message, self.unread = self.unread.split(b"\0", 1)
        return json.loads(message)

    def open(self, url):
        """Opens a page from nothing, also where only the part behind `#` is another."""
        for one in ("about:blank", url):
            self.send("Page.navigate", url=one)
        self.until("document.readyState == 'complete'")

    def run(self, script):
        """What a JavaScript expression gives."""
        result = self.send("Runtime.evaluate", expression=script, returnByValue=True, awaitPromise=True)
        if "exceptionDetails" in result:
            raise RuntimeError(f"{script}: {result['exceptionDetails']}")
        return result["result"].get("value")

    def until(self, script, seconds=LONGEST):
        """Waits until an expression gives something true, and gives that; after so many seconds what it gives then."""
        end = time.monotonic() + seconds
        while not (value := self.run(script)) and time.monotonic() < end:
            time.sleep(0.02)
        return value

    def press(self, key):
        """Presses a key, as `j`, `Enter` or `Escape`."""
        text = {"Enter": "\r"}.get(key, key if len(key) == 1 else "")
        code = {"Enter": 13, "Escape": 27, "Tab": 9}.get(key, ord(key[0].upper()))
        self.send("Input.dispatchKeyEvent", type="keyDown", key=key, text=text, windowsVirtualKeyCode=code)
        self.send("Input.dispatchKeyEvent", type="keyUp", key=key, windowsVirtualKeyCode=code)

    def type(self, text):
        """Types into what has the focus."""
        self.send("Input.insertText", text=text)

    def click(self, script):
        """Clicks, by the mouse, in the middle of the element that an expression gives."""
        x, y = self.run(MIDDLE.format(script))
        for kind in ("mousePressed", "mouseReleased"):
            self.send("Input.dispatchMouseEvent", type=kind, x=x, y=y, button="left", clickCount=1)

    def resize(self, width, height):
        size = {"width": width, "height": height, "deviceScaleFactor": 1, "mobile": width < 600}
        self.send("Emulation.setDeviceMetricsOverride", **size)

    def prefer(self, scheme):
        """Has the reader prefer `light` or `dark`."""
        self.send("Emulation.setEmulatedMedia", features=[{"name": "prefers-color-scheme", "value": scheme}])

    def shoot(self, path):
        """Writes what is seen to a PNG file."""
        with open(path, "wb") as file:
            file.write(base64.b64decode(self.send("Page.captureScreenshot", format="png")["data"]))

    def stop(self):
        self.process.terminate()
        self.process.wait()
