"""Drives a headless Chromium by its own protocol, over two pipes: each message is JSON that ends with a zero byte."""

import base64
import functools
import http.server
import json
import os
import pathlib
import select
import shutil
import signal
import subprocess
import tempfile
import threading
import time

PATIENCE = 60
KEYS = {"ArrowLeft": 37, "ArrowUp": 38, "ArrowRight": 39, "ArrowDown": 40, "Tab": 9, "End": 35, "Home": 36}
SHIFT = 8


class Failed(Exception):
    """What a page or the browser did that it should not."""


class Quiet(http.server.SimpleHTTPRequestHandler):
    """Serves files as they are at the moment, and says nothing of it."""

    def log_message(self, *_):
        pass

    def end_headers(self):
        self.send_header("Cache-Control", "no-store")
        super().end_headers()


class Served:
    """A folder that is served by this machine, to itself alone, at the address `url`."""

    def __init__(self, folder):
        handler = functools.partial(Quiet, directory=str(folder))
        self.server = http.server.ThreadingHTTPServer(("127.0.0.1", 0), handler)
        self.url = f"http://127.0.0.1:{self.server.server_port}"

    def __enter__(self):
        threading.Thread(target=self.server.serve_forever, daemon=True).start()
        return self

    def __exit__(self, *_):
        self.server.shutdown()
        self.server.server_close()


def on_pipes(reads, writes):
    """Puts the browser's ends of the pipes where it looks for them: it reads at 3 and writes at 4."""
    reads, writes = os.dup(reads), os.dup(writes)
    os.dup2(reads, 3)
    os.dup2(writes, 4)


class Browser:
    """A headless Chromium with one page, and what that page said of its own faults. The page stands in a folder of this machine."""

    def __init__(self, program, folder):
        self.folder = folder
        self.profile = tempfile.mkdtemp(prefix="pix-web-")
        theirs, self.writes = os.pipe()
        self.reads, also_theirs = os.pipe()
        options = ["--headless=new", "--remote-debugging-pipe", "--disable-gpu", "--hide-scrollbars", f"--user-data-dir={self.profile}"]
        options += ["--no-first-run", "--disable-dev-shm-usage", "--force-color-profile=srgb"] + (["--no-sandbox"] if os.geteuid() == 0 else [])
        with open(pathlib.Path(self.profile) / "said", "wb") as said:
            self.process = subprocess.Popen(
                [program, *options, "about:blank"], stdin=subprocess.DEVNULL, stdout=said, stderr=said, start_new_session=True,
                preexec_fn=functools.partial(on_pipes, theirs, also_theirs), pass_fds=(3, 4),
            )  # fmt: skip
        os.close(theirs)
        os.close(also_theirs)
        self.rest, self.number, self.session, self.faults = b"", 0, None, []
        target = next(it for it in self.ask("Target.getTargets")["targetInfos"] if it["type"] == "page")
        self.session = self.ask("Target.attachToTarget", targetId=target["targetId"], flatten=True)["sessionId"]
        for domain in ("Page", "Runtime", "Log", "Network"):
            self.ask(f"{domain}.enable")

    def __enter__(self):
        return self

    def __exit__(self, *_):
        os.killpg(self.process.pid, signal.SIGKILL)
        self.process.wait()
        os.close(self.reads)
        os.close(self.writes)
        shutil.rmtree(self.profile, ignore_errors=True)

    def message(self, deadline):
        """Returns the next message of the browser."""
        while b"\0" not in self.rest:
            if not select.select([self.reads], [], [], max(0, deadline - time.monotonic()))[0]:
                raise Failed("the browser does not answer")
            part = os.read(self.reads, 1 << 20)
            if not part:
                raise Failed("the browser ended")
            self.rest += part
        text, _, self.rest = self.rest.partition(b"\0")
        return json.loads(text)

    def ask(self, method, **values):
        """Asks the browser, and returns what it answers. What the page does meanwhile is noted."""
        self.number += 1
        question = {"id": self.number, "method": method, "params": values, **({"sessionId": self.session} if self.session else {})}
        os.write(self.writes, json.dumps(question).encode() + b"\0")
        deadline = time.monotonic() + PATIENCE
        while True:
            answer = self.message(deadline)
            self.note(answer)
            if answer.get("id") == self.number:
                if "error" in answer:
                    raise Failed(f"{method}: {answer['error']['message']}")
                return answer["result"]

    def note(self, event):
        """Notes a fault that the page or the browser reports."""
        values = event.get("params", {})
        if event.get("method") == "Runtime.exceptionThrown":
            self.faults.append(values["exceptionDetails"].get("exception", {}).get("description", values["exceptionDetails"]["text"]))
        if event.get("method") == "Log.entryAdded" and values["entry"]["level"] == "error":
            self.faults.append(f"{values['entry']['text']} {values['entry'].get('url', '')}")

    def run(self, code):
        """Runs JavaScript in the page, an expression that may be a promise, and returns its value."""
        found = self.ask("Runtime.evaluate", expression=code, awaitPromise=True, returnByValue=True)
        if "exceptionDetails" in found:
            raise Failed(f"{code[:80]}: {found['exceptionDetails'].get('exception', {}).get('description')}")
        return found["result"].get("value")

    def wait_for(self, code, seconds=PATIENCE):
        """Waits until a JavaScript expression is true, for so long."""
        deadline = time.monotonic() + seconds
        while not self.run(code):
            if time.monotonic() > deadline:
                raise Failed(f"it does not come to pass: {code}")
            time.sleep(0.05)

    def open(self, url, ready):
        """Opens a page anew, as one who never saw it, and waits until an expression there is true."""
        self.run("try { sessionStorage.clear() } catch { 0 }")
        self.ask("Page.navigate", url="about:blank")
        self.wait_for("location.href === 'about:blank'")
        self.faults.clear()
        self.ask("Page.navigate", url=url)
        self.wait_for(f"location.href === {json.dumps(url)} && {ready}")

    def key(self, name, shift=False):
        """Presses a key, and waits for two frames."""
        for kind in ("rawKeyDown", "keyUp"):
            self.ask("Input.dispatchKeyEvent", type=kind, key=name, code=name, windowsVirtualKeyCode=KEYS[name], modifiers=SHIFT if shift else 0)
        self.frames()

    def mouse(self, kind, x, y, buttons=0):
        """Moves, presses or releases the mouse at a point of the window."""
        button = "left" if kind != "mouseMoved" else "none"
        self.ask("Input.dispatchMouseEvent", type=kind, x=x, y=y, button=button, buttons=buttons, clickCount=int(button == "left"))

    def frames(self):
        """Waits until what was asked for is drawn."""
        self.run("new Promise((done) => requestAnimationFrame(() => requestAnimationFrame(() => done(0))))")

    def touch(self, x, y):
        """Touches a point of the window with a finger."""
        self.ask("Input.dispatchTouchEvent", type="touchStart", touchPoints=[{"x": x, "y": y}])
        self.ask("Input.dispatchTouchEvent", type="touchEnd", touchPoints=[])
        self.frames()

    def look(self, width, scheme="light", height=900, scale=1, is_telephone=False):
        """Makes the window so wide and high, with so many of the screen's pixels for each of its own, and the page light or dark."""
        self.ask("Emulation.setDeviceMetricsOverride", width=width, height=height, deviceScaleFactor=scale, mobile=is_telephone)
        self.ask("Emulation.setTouchEmulationEnabled", enabled=is_telephone)
        self.ask("Emulation.setEmulatedMedia", features=[{"name": "prefers-color-scheme", "value": scheme}])
        self.frames()

    def link(self, wait=0):
        """Makes each answer of the server come so many milliseconds late."""
        self.ask("Network.emulateNetworkConditions", offline=False, latency=wait, downloadThroughput=-1, uploadThroughput=-1)

    def lose(self, *files):
        """Makes files that end so never come."""
        self.ask("Network.setBlockedURLs", urls=[f"*{file}" for file in files])

    def picture(self, first, last):
        """Returns a picture of the page as the bytes of a PNG file: from the top of one element to the bottom of another."""
        code = """['%s', '%s'].map((id) => document.getElementById(id).getBoundingClientRect()).map((box, at) => (at ? box.bottom : box.top) + scrollY)"""
        top, bottom = self.run(code % (first, last))
        width = self.run("document.documentElement.clientWidth")
        clip = {"x": 0, "y": top, "width": width, "height": bottom - top + 16, "scale": 1}
        return base64.b64decode(self.ask("Page.captureScreenshot", format="png", captureBeyondViewport=True, clip=clip)["data"])
