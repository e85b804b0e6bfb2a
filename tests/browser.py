"""A headless Chromium for tests, driven over two pipes by the DevTools protocol."""
import base64
import json
import os
import select
import shutil
import signal
import subprocess
import tempfile
import time

NAMES = ["chromium", "chromium-browser", "google-chrome"]
SECONDS = 60


def path():
    """The path of a browser, or None."""
    return next(filter(None, map(shutil.which, NAMES)), None)


class Browser:
    """One page of a browser, with a folder of its own."""

    def __init__(self):
        self.folder = tempfile.mkdtemp()
        (self.read_end, theirs_out), (theirs_in, self.write_end) = os.pipe(), os.pipe()

        def arrange():
            # (first out of the way of the two numbers that the browser takes)
            high = [os.dup(theirs_in), os.dup(theirs_out)]
            while min(high) < 5:
                high = [os.dup(it) for it in high]
            os.dup2(high[0], 3)
            os.dup2(high[1], 4)

        self.process = subprocess.Popen(
            [path(), "--headless=new", "--no-sandbox", "--disable-gpu", "--remote-debugging-pipe", "--no-first-run",
             "--disable-dev-shm-usage", "--disable-background-networking", f"--user-data-dir={self.folder}"],
            stdin=subprocess.DEVNULL, stdout=subprocess.DEVNULL, stderr=subprocess.DEVNULL, preexec_fn=arrange,
            close_fds=False, start_new_session=True, env={**os.environ, "HOME": self.folder})
        os.close(theirs_in)
        os.close(theirs_out)
        self.number, self.text, self.session, self.events = 0, b"", None, []
        target = self.ask("Target.createTarget", url="about:blank")["targetId"]
        self.session = self.ask("Target.attachToTarget", targetId=target, flatten=True)["sessionId"]
        for domain in ("Page", "Runtime", "Log", "Network"):
            self.ask(f"{domain}.enable")

    def __enter__(self):
        return self

    def __exit__(self, *_):
        os.killpg(self.process.pid, signal.SIGKILL)
        self.process.wait()
        os.close(self.read_end)
        os.close(self.write_end)
        shutil.rmtree(self.folder, ignore_errors=True)

    def ask(self, method, **words):
        """Sends a command, and returns its answer."""
        self.number += 1
        asked = {"id": self.number, "method": method, "params": words}
        if self.session:
            asked["sessionId"] = self.session
        os.write(self.write_end, json.dumps(asked).encode() + b"\0")
        while True:
            message = self.next_message(SECONDS)
            if message.get("id") == self.number:
                if "error" in message:
                    raise RuntimeError(f"{method}: {message['error']}")
                return message["result"]
            self.events.append(message)

    def next_message(self, seconds):
        end = time.monotonic() + seconds
        while b"\0" not in self.text:
            if not select.select([self.read_end], [], [], max(0, end - time.monotonic()))[0]:
                raise TimeoutError("the browser says nothing")
            some = os.read(self.read_end, 1 << 20)
            if not some:
                raise RuntimeError("the browser ended")
            self.text += some
        message, _, self.text = self.text.partition(b"\0")
        return json.loads(message)

    def run(self, script):
        """Evaluates an expression in the page, awaits it, and returns its value."""
        message = self.ask("Runtime.evaluate", expression=script, awaitPromise=True, returnByValue=True)
        if "exceptionDetails" in message:
            raise RuntimeError(f"{script}: {message['exceptionDetails']}")
        return message["result"].get("value")

    def open(self, address):
        self.ask("Page.navigate", url=address)
        self.until("document.readyState === 'complete'")

    def until(self, condition, seconds=20):
        """Waits for a condition of the page, and returns the seconds that took."""
        begin = time.monotonic()
        while not self.run(condition):
            if time.monotonic() - begin > seconds:
                raise TimeoutError(condition)
            time.sleep(0.01)
        return time.monotonic() - begin

    def size(self, width, height):
        self.ask("Emulation.setDeviceMetricsOverride", width=width, height=height, deviceScaleFactor=1, mobile=False)

    def dark(self, is_dark):
        self.ask("Emulation.setEmulatedMedia",
                 features=[{"name": "prefers-color-scheme", "value": "dark" if is_dark else "light"}])

    def key(self, key, text="", modifiers=0):
        """Presses a key, with the text that it types."""
        codes = {"Enter": 13, "Tab": 9, "Escape": 27, "ArrowDown": 40, "ArrowUp": 38, "PageDown": 34, "PageUp": 33,
                 "Home": 36, "End": 35, "Delete": 46}
        words = {"key": key, "windowsVirtualKeyCode": codes.get(key, ord(key.upper()) if len(key) == 1 else 0),
                 "modifiers": modifiers}
        self.ask("Input.dispatchKeyEvent", type="keyDown", **words, **({"text": text} if text else {}))
        self.ask("Input.dispatchKeyEvent", type="keyUp", **words)

    def type(self, text):
        self.ask("Input.insertText", text=text)

    def click(self, selector):
        """Clicks in the middle of an element."""
        x, y = self.run(f"(() => {{const it = document.querySelector({json.dumps(selector)}); "
                        "it.scrollIntoView({block: 'nearest'}); const box = it.getBoundingClientRect(); "
                        "return [box.x + box.width / 2, box.y + box.height / 2]})()")
        for kind in ("mousePressed", "mouseReleased"):
            self.ask("Input.dispatchMouseEvent", type=kind, x=x, y=y, button="left", clickCount=1)

    def picture(self):
        """The window as PNG."""
        return base64.b64decode(self.ask("Page.captureScreenshot", format="png")["data"])

    def printed(self):
        """The page as PDF."""
        return base64.b64decode(self.ask("Page.printToPDF", printBackground=True, paperWidth=8.27, paperHeight=11.69)["data"])

    def complaints(self):
        """What the page logged as wrong, and what it threw."""
        kinds = ("Runtime.exceptionThrown", "Log.entryAdded")
        return [message["params"] for message in self.events if message.get("method") in kinds
                and message["params"].get("entry", {}).get("level", "error") == "error"]

    def requests(self):
        """The addresses that were asked for."""
        return [it["params"]["request"]["url"] for it in self.events if it.get("method") == "Network.requestWillBeSent"]
