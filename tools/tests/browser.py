"""A real browser for tests: Debian's chromium without a window, asked by the protocol of its developer tools."""
import base64
import fcntl
import json
import os
import select
import shutil
import subprocess
import tempfile
import time
import unittest

CHROMIUM = shutil.which("chromium")
SECONDS = 240  # for one answer: a busy machine took more than 60 to sort 32,112 stations
HIGH = 10  # file descriptors from here on are out of the way of those that the browser takes, 3 and 4
WORDS = ("--headless", "--remote-debugging-pipe", "--no-first-run", "--disable-gpu", "--disable-dev-shm-usage",
         "--disable-background-networking", "--disable-component-update", "--disable-extensions", "--hide-scrollbars",
         "--no-proxy-server", "--lang=en")
needs_chromium = unittest.skipUnless(CHROMIUM, "chromium isn't there: apt-get install chromium")


class Browser:
    """One page of a browser. `faults` is what it told of errors of scripts, and of what it kept from being loaded."""

    def __init__(self):
        self.folder = tempfile.TemporaryDirectory()
        reads, self.writing = os.pipe()
        self.reading, writes = os.pipe()
        ends = [fcntl.fcntl(end, fcntl.F_DUPFD, HIGH) for end in (reads, writes)]
        words = [*WORDS, f"--user-data-dir={self.folder.name}", *(["--no-sandbox"] if os.geteuid() == 0 else [])]
        self.process = subprocess.Popen(
            ["/bin/bash", "-c", 'reads=$1 writes=$2; shift 2; exec "$@" 3<&"$reads" 4>&"$writes"', "bash",
             *map(str, ends), CHROMIUM, *words, "about:blank"],
            pass_fds=ends, stdin=subprocess.DEVNULL, stdout=subprocess.DEVNULL, stderr=subprocess.DEVNULL)
        for end in (reads, writes, *ends):
            os.close(end)
        self.came, self.number, self.session, self.faults = b"", 0, None, []
        target = self.ask("Target.createTarget", url="about:blank")["targetId"]
        self.session = self.ask("Target.attachToTarget", targetId=target, flatten=True)["sessionId"]
        for domain in ("Page", "Runtime", "Log"):
            self.ask(f"{domain}.enable")

    def close(self):
        """Ends it. Its helpers may write into its folder for a moment longer."""
        self.process.terminate()
        self.process.wait()
        os.close(self.writing)
        os.close(self.reading)
        until = time.monotonic() + SECONDS
        while True:
            try:
                self.folder.cleanup()
                return
            except OSError:
                if time.monotonic() > until:
                    raise
                time.sleep(0.05)

    def ask(self, method, **words):
        """Asks it for something, and waits for its answer."""
        self.number += 1
        asked = {"id": self.number, "method": method, "params": words}
        if self.session:
            asked["sessionId"] = self.session
        os.write(self.writing, json.dumps(asked).encode() + b"\0")
        until = time.monotonic() + SECONDS
        while True:
            told = self.next(until)
            if told.get("id") == self.number:
                if "error" in told:
                    raise AssertionError(f"{method}: {told['error']}")
                return told["result"]
            self.take(told)

    def next(self, until):
        """The next that it tells."""
        while b"\0" not in self.came:
            if not select.select([self.reading], [], [], max(0, until - time.monotonic()))[0]:
                raise AssertionError("the browser doesn't answer")
            piece = os.read(self.reading, 1 << 16)
            if not piece:
                raise AssertionError("the browser ended")
            self.came += piece
        told, _, self.came = self.came.partition(b"\0")
        return json.loads(told)

    def take(self, told):
        """Takes what it tells without being asked. An answer that comes too late for its test is left out."""
        if told.get("method") == "Log.entryAdded":
            self.faults.append(told["params"]["entry"]["text"])
        elif told.get("method") == "Runtime.exceptionThrown":
            self.faults.append(json.dumps(told["params"]["exceptionDetails"]))

    def size(self, width, height, is_dark=False, scale=1):
        """Sets how large its window is, and which colours its user likes."""
        self.ask("Emulation.setDeviceMetricsOverride", width=width, height=height, deviceScaleFactor=scale,
                 mobile=width < 600)
        self.ask("Emulation.setEmulatedMedia",
                 features=[{"name": "prefers-color-scheme", "value": "dark" if is_dark else "light"}])

    def open(self, url):
        """Opens a page, and waits until it is there."""
        self.ask("Page.navigate", url=url)
        self.wait("document.readyState === 'complete'")

    def value(self, script):
        """What a script answers in its page."""
        told = self.ask("Runtime.evaluate", expression=script, returnByValue=True, awaitPromise=True)
        if "exceptionDetails" in told:
            raise AssertionError(json.dumps(told["exceptionDetails"]))
        return told["result"].get("value")

    def wait(self, script):
        """Waits until a script answers what holds."""
        until = time.monotonic() + SECONDS
        while not self.value(script):
            if time.monotonic() > until:
                raise AssertionError(f"still not: {script}\n{self.value('document.body?.innerText')}")
            time.sleep(0.05)

    def picture(self, is_whole=True):
        """Its page as a PNG: the whole of it, or what its window shows."""
        told = self.ask("Page.captureScreenshot", format="png", captureBeyondViewport=is_whole)
        return base64.b64decode(told["data"])
