"""A headless Chromium, driven over a pipe by the DevTools protocol: no library, no port."""

import base64
import json
import os
import shutil
import subprocess
import tempfile
import time


class Browser:
    def __init__(self):
        self.home = tempfile.mkdtemp()
        ours_to_read, theirs_to_write = os.pipe()
        theirs_to_read, ours_to_write = os.pipe()

        def take_pipes():  # the protocol reads from 3 and writes to 4
            os.dup2(theirs_to_read, 30)
            os.dup2(theirs_to_write, 31)
            os.dup2(30, 3)
            os.dup2(31, 4)

        words = ["chromium", "--headless=new", "--no-sandbox", "--disable-gpu", "--remote-debugging-pipe",
                 "--hide-scrollbars", "--no-first-run", "--disable-extensions", "--disable-background-networking",
                 f"--user-data-dir={self.home}", "about:blank"]
        self.process = subprocess.Popen(words, preexec_fn=take_pipes, close_fds=False, stderr=subprocess.DEVNULL)
        os.close(theirs_to_read)
        os.close(theirs_to_write)
        self.input = os.fdopen(ours_to_write, "wb", buffering=0)
        self.output = os.fdopen(ours_to_read, "rb")
        self.calls = 0
        self.events = []
        self.session = None
        target = self.call("Target.createTarget", url="about:blank")["targetId"]
        self.session = self.call("Target.attachToTarget", targetId=target, flatten=True)["sessionId"]
        for domain in ("Page", "Runtime", "Network", "Log"):
            self.call(f"{domain}.enable")
        self.call("Performance.enable", timeDomain="threadTicks")

    def read(self):
        text = bytearray()
        while (byte := self.output.read(1)) != b"\0":
            if not byte:
                raise EOFError("the browser is gone")
            text += byte
        return json.loads(text)

    def call(self, method, **parameters):
        self.calls += 1
        message = {"id": self.calls, "method": method, "params": parameters}
        if self.session:
            message["sessionId"] = self.session
        self.input.write(json.dumps(message).encode() + b"\0")
        while True:
            answer = self.read()
            if answer.get("id") == self.calls:
                if "error" in answer:
                    raise RuntimeError(f"{method}: {answer['error']}")
                return answer["result"]
            self.events.append(answer)

    def open(self, url):
        """By way of an empty page, so that the same page with another turn is loaded anew."""
        for place in ("about:blank", url):
            self.call("Page.navigate", url=place)
            while self.value("document.readyState + location.href.split('#')[0]") != f"complete{place.split('#')[0]}":
                time.sleep(0.05)
            if place == "about:blank":
                self.events.clear()

    def value(self, script):
        answer = self.call("Runtime.evaluate", expression=script, returnByValue=True, awaitPromise=True)
        if "exceptionDetails" in answer:
            raise RuntimeError(json.dumps(answer["exceptionDetails"])[:800])
        return answer["result"].get("value")

    def busy(self):
        """For how many seconds of a processor the page's thread has worked, whatever else the machine does."""
        return next(it["value"] for it in self.call("Performance.getMetrics")["metrics"] if it["name"] == "TaskDuration")

    def key(self, key, code=None, text=None, shift=False):
        number = {"Escape": 27, "Tab": 9, "Enter": 13, " ": 32}.get(key, 0)
        parameters = {"key": key, "code": code or key, "modifiers": 8 if shift else 0, "windowsVirtualKeyCode": number}
        self.call("Input.dispatchKeyEvent", type="keyDown", **parameters, **({"text": text} if text else {}))
        self.call("Input.dispatchKeyEvent", type="keyUp", **parameters)

    def click(self, x, y):
        for kind in ("mousePressed", "mouseReleased"):
            self.call("Input.dispatchMouseEvent", type=kind, x=x, y=y, button="left", clickCount=1)

    def size(self, width, height, scale=1):
        self.call("Emulation.setDeviceMetricsOverride", width=width, height=height, deviceScaleFactor=scale, mobile=False)

    def media(self, **features):
        kind = features.pop("media", "")
        listed = [{"name": name.replace("_", "-"), "value": value} for name, value in features.items()]
        self.call("Emulation.setEmulatedMedia", media=kind, features=listed)

    def shoot(self, path):
        data = self.call("Page.captureScreenshot", format="png")["data"]
        with open(path, "wb") as file:
            file.write(base64.b64decode(data))

    def close(self):
        try:
            self.session = None
            self.call("Browser.close")
        except (EOFError, BrokenPipeError):
            pass
        self.process.wait(20)
        shutil.rmtree(self.home, ignore_errors=True)
