"""Drives headless Chromium (over its debugging pipe) and Firefox (over Marionette) for tools/page-checks, with the
standard library alone. Both have the same methods; each says what it can not do."""
import base64
import json
import os
import pathlib
import shutil
import socket
import subprocess
import tempfile
import time

LONGEST = 60  # seconds that a step may take


def until(what, is_done, seconds=LONGEST):
    end = time.time() + seconds
    while time.time() < end:
        if is_done():
            return
        time.sleep(0.05)
    raise TimeoutError("waited in vain: " + what)


class Browser:
    """What both browsers do alike. `folder` is a new one, with the profile and what the page saves."""

    def __init__(self):
        self.folder = pathlib.Path(tempfile.mkdtemp(prefix="page-browser-"))
        self.saved = self.folder / "saved"
        self.saved.mkdir()
        self.opened = set()

    def wait(self, expression):
        until(expression, lambda: self.js(expression))

    def save(self, selector, name):
        """Presses what saves a file, and reads the file."""
        path = self.saved / name
        path.unlink(missing_ok=True)
        self.click(selector)
        parts = [".crdownload", ".part"]
        until("a file " + name, lambda: path.exists() and not any(it.suffix in parts for it in self.saved.iterdir()))
        content = path.read_bytes()
        path.unlink()
        return content

    def end(self):
        try:
            self.process.wait(20)
        except subprocess.TimeoutExpired:
            self.process.kill()
            self.process.wait()
        shutil.rmtree(self.folder, ignore_errors=True)


class Chromium(Browser):
    name = "Chromium"

    def __init__(self, *flags):
        super().__init__()
        ours, theirs = os.pipe(), os.pipe()
        words = [os.environ.get("BROWSER", "chromium"), "--headless=new", "--no-sandbox", "--disable-gpu",
                 "--hide-scrollbars", "--no-first-run", "--disable-background-networking", "--remote-debugging-pipe",
                 f"--user-data-dir={self.folder}/profile", *flags, "about:blank"]
        shell = ["bash", "-c", f'exec "$@" 3<&{ours[0]} 4>&{theirs[1]}', "bash"]
        self.process = subprocess.Popen([*shell, *words], pass_fds=(ours[0], theirs[1]), stdout=subprocess.DEVNULL,
                                        stderr=subprocess.DEVNULL)
        os.close(ours[0])
        os.close(theirs[1])
        self.to, self.out = open(ours[1], "wb"), open(theirs[0], "rb")
        self.rest, self.asked, self.session = b"", 0, None
        self.requests, self.complaints = [], []
        page = next(it for it in self.call("Target.getTargets")["targetInfos"] if it["type"] == "page")
        self.session = self.call("Target.attachToTarget", targetId=page["targetId"], flatten=True)["sessionId"]
        for it in ("Page", "Runtime", "Network", "DOM", "Log"):
            self.call(it + ".enable")
        self.call("Target.setAutoAttach", autoAttach=True, waitForDebuggerOnStart=True, flatten=True)
        self.call("Browser.setDownloadBehavior", behavior="allow", downloadPath=str(self.saved))
        self.version = self.call("Browser.getVersion")["product"]

    def note(self, event):
        method, params = event["method"], event.get("params", {})
        if method == "Network.requestWillBeSent":
            self.requests.append(params["request"]["url"])
        elif method == "Log.entryAdded":
            self.complaints.append(params["entry"]["text"])
        elif method == "Runtime.exceptionThrown":
            self.complaints.append(params["exceptionDetails"]["text"])
        elif method == "Target.attachedToTarget":
            # A worker or a frame: its requests are seen too, before it begins.
            for it in ("Network.enable", "Runtime.runIfWaitingForDebugger"):
                self.send(it, {}, params["sessionId"])

    def send(self, method, params, session):
        self.asked += 1
        message = {"id": self.asked, "method": method, "params": params}
        if session and not method.startswith(("Target.getTargets", "Target.attachToTarget", "Browser.")):
            message["sessionId"] = session
        self.to.write(json.dumps(message).encode() + b"\0")
        self.to.flush()
        return self.asked

    def call(self, method, **params):
        wanted = self.send(method, params, self.session)
        while True:
            while b"\0" not in self.rest:
                got = os.read(self.out.fileno(), 1 << 20)
                if not got:
                    raise EOFError("Chromium ended")
                self.rest += got
            line, _, self.rest = self.rest.partition(b"\0")
            answer = json.loads(line)
            if "method" in answer:
                self.note(answer)
            elif answer["id"] == wanted:
                if "error" in answer:
                    raise RuntimeError(f"{method}: {answer['error']['message']}")
                return answer["result"]

    def js(self, expression):
        answer = self.call("Runtime.evaluate", expression=expression, awaitPromise=True, returnByValue=True)
        if "exceptionDetails" in answer:
            raise RuntimeError(expression + ": " + json.dumps(answer["exceptionDetails"])[:500])
        return answer["result"].get("value")

    def go(self, path):
        self.opened.add(pathlib.Path(path).as_uri())
        self.call("Page.navigate", url=pathlib.Path(path).as_uri())
        self.wait("document.readyState === 'complete'")

    def place(self, selector):
        """The middle of an element, scrolled into sight. A moment passes until events go by what is then on screen."""
        element = f"document.querySelector({json.dumps(selector)})"
        self.js(f"{element}.scrollIntoView({{ block: 'center' }})")
        time.sleep(0.3)
        middle = "({ x, y, width, height }) => [x + width / 2, y + height / 2]"
        return self.js(f"({middle})({element}.getBoundingClientRect())")

    def click(self, selector):
        x, y = self.place(selector)
        for kind in ("mousePressed", "mouseReleased"):
            self.call("Input.dispatchMouseEvent", type=kind, x=x, y=y, button="left", clickCount=1)

    def press(self, key, code, text=""):
        for kind in ("keyDown", "keyUp"):
            self.call("Input.dispatchKeyEvent", type=kind, key=key, code=key, windowsVirtualKeyCode=code,
                      text=text if kind == "keyDown" else "")

    def type(self, selector, text):
        self.js(f"document.querySelector({json.dumps(selector)}).focus()")
        self.call("Input.insertText", text=text)
        self.press("Tab", 9)

    def drop(self, *paths):
        """Drags files over the page and drops them, as the browser's own events."""
        x, y = self.place("#drop")
        data = {"items": [], "files": [str(it) for it in paths], "dragOperationsMask": 1}
        for kind in ("dragEnter", "dragOver", "drop"):
            self.call("Input.dispatchDragEvent", type=kind, x=x, y=y, data=data)

    def choose(self, selector, *paths):
        root = self.call("DOM.getDocument")["root"]["nodeId"]
        node = self.call("DOM.querySelector", nodeId=root, selector=selector)["nodeId"]
        self.call("DOM.setFileInputFiles", nodeId=node, files=[str(it) for it in paths])

    def look(self, width, height, is_dark):
        self.call("Emulation.setDeviceMetricsOverride", width=width, height=height, deviceScaleFactor=1, mobile=False)
        theme = {"name": "prefers-color-scheme", "value": "dark" if is_dark else "light"}
        self.call("Emulation.setEmulatedMedia", features=[theme])

    def shot(self, path, whole=False):
        answer = self.call("Page.captureScreenshot", format="png", captureBeyondViewport=whole)
        pathlib.Path(path).write_bytes(base64.b64decode(answer["data"]))

    def end(self):
        self.send("Browser.close", {}, None)
        super().end()


PREFERENCES = {
    "browser.download.folderList": 2,
    "browser.download.useDownloadDir": True,
    "browser.download.alwaysOpenPanel": False,
    "browser.shell.checkDefaultBrowser": False,
    "browser.startup.page": 0,
    "marionette.port": 0,
    "layout.css.prefers-color-scheme.content-override": 1,
}


class Firefox(Browser):
    """Marionette has no drag of files: `drop` makes the event in the page."""

    name = "Firefox"
    complaints = ()

    def __init__(self, **more):
        super().__init__()
        profile = self.folder / "profile"
        profile.mkdir()
        preferences = {**PREFERENCES, "browser.download.dir": str(self.saved), **more}
        (profile / "user.js").write_text("".join(
            f"user_pref({json.dumps(name)}, {json.dumps(value)});\n" for name, value in preferences.items()))
        words = [os.environ.get("FIREFOX", "firefox-esr"), "--headless", "--marionette", "--remote-allow-system-access",
                 "--no-remote", "--profile", str(profile)]
        self.process = subprocess.Popen(words, stdout=subprocess.DEVNULL, stderr=subprocess.DEVNULL,
                                        env={**os.environ, "HOME": str(self.folder)})
        port = profile / "MarionetteActivePort"
        until("Firefox", lambda: port.exists() and port.read_text())
        self.socket = socket.create_connection(("127.0.0.1", int(port.read_text())))
        self.rest, self.asked = b"", 0
        self.receive()
        self.version = "Firefox/" + self.call("WebDriver:NewSession", capabilities={})["capabilities"]["browserVersion"]
        self.call("WebDriver:SetTimeouts", script=LONGEST * 1000)
        self.watch()

    def receive(self):
        while b":" not in self.rest:
            self.rest += self.socket.recv(1 << 16)
        count, _, self.rest = self.rest.partition(b":")
        while len(self.rest) < int(count):
            got = self.socket.recv(1 << 20)
            if not got:
                raise EOFError("Firefox ended")
            self.rest += got
        answer, self.rest = self.rest[: int(count)], self.rest[int(count) :]
        return json.loads(answer)

    def call(self, method, **params):
        self.asked += 1
        message = json.dumps([0, self.asked, method, params]).encode()
        self.socket.sendall(str(len(message)).encode() + b":" + message)
        _, _, error, result = self.receive()
        if error:
            raise RuntimeError(f"{method}: {error['message']}")
        return result

    def js(self, expression):
        return self.call("WebDriver:ExecuteScript", script=f"return ({expression});", args=[], sandbox=None)["value"]

    def chrome(self, script):
        self.call("Marionette:SetContext", value="chrome")
        try:
            return self.call("WebDriver:ExecuteScript", script=script, args=[])["value"]
        finally:
            self.call("Marionette:SetContext", value="content")

    def watch(self):
        """Notes each request of a page, and leaves out those of the browser itself."""
        self.chrome("""
            const { classes: c, interfaces: i } = Components;
            window.pageRequests = [];
            Services.obs.addObserver((channel) => {
                const { loadInfo, URI } = channel.QueryInterface(i.nsIHttpChannel);
                if (!loadInfo.triggeringPrincipal.isSystemPrincipal) window.pageRequests.push(URI.spec);
            }, 'http-on-opening-request');""")

    @property
    def requests(self):
        return self.chrome("return window.pageRequests;")

    def go(self, path):
        self.opened.add(pathlib.Path(path).as_uri())
        self.call("WebDriver:Navigate", url=pathlib.Path(path).as_uri())

    def element(self, selector):
        found = self.call("WebDriver:FindElement", using="css selector", value=selector)["value"]
        return next(iter(found.values()))

    def click(self, selector):
        self.call("WebDriver:ElementClick", id=self.element(selector))

    def type(self, selector, text):
        self.call("WebDriver:ElementSendKeys", id=self.element(selector), text=text + "\ue004")

    def drop(self, *paths):
        files = [[pathlib.Path(it).name, base64.b64encode(pathlib.Path(it).read_bytes()).decode()] for it in paths]
        self.call("WebDriver:ExecuteScript", sandbox=None, args=[files], script="""
            const moved = new DataTransfer();
            for (const [name, bytes] of arguments[0])
                moved.items.add(new File([Uint8Array.from(atob(bytes), (it) => it.charCodeAt(0))], name));
            const how = { dataTransfer: moved, bubbles: true, cancelable: true };
            for (const kind of ['dragenter', 'dragover', 'drop'])
                document.body.dispatchEvent(new DragEvent(kind, how));""")

    def choose(self, selector, *paths):
        self.call("WebDriver:ElementSendKeys", id=self.element(selector), text="\n".join(str(it) for it in paths))

    def look(self, width, height, is_dark):
        self.call("WebDriver:SetWindowRect", width=width, height=height)
        theme = 0 if is_dark else 1
        self.chrome(f"Services.prefs.setIntPref('layout.css.prefers-color-scheme.content-override', {theme});")

    def shot(self, path, whole=False):
        answer = self.call("WebDriver:TakeScreenshot", full=whole, hash=False)
        pathlib.Path(path).write_bytes(base64.b64decode(answer["value"]))

    def end(self):
        try:
            self.call("Marionette:Quit", flags=["eForceQuit"])
        except (EOFError, OSError, RuntimeError):
            pass
        super().end()
