"""Chromium and Firefox without a window, led by mouse and keys as a person leads them: for tools/check-desk.

Both have the same calls. Chromium is led over two pipes by the protocol of its tools for developers, and Firefox over a
socket by Marionette. `value` evaluates an expression in the page, and waits for a promise.
"""
import base64
import json
import os
import pathlib
import select
import shutil
import socket
import subprocess
import time

CHROMIUMS, FIREFOXES = ("chromium", "chromium-browser", "google-chrome"), ("firefox-esr", "firefox")
# So many seconds a browser may take for an answer. A machine with much to do is slow.
PATIENCE = 600
CONTROL = 2


def found(names):
    """The path of the first command that is there, or None."""
    return next(filter(None, map(shutil.which, names)), None)


class Browser:
    """What both share."""

    name = "a browser"

    def value(self, text):
        """The value of an expression in the page."""
        raise NotImplementedError

    def until(self, text, seconds=60):
        """Waits until an expression is true, and answers whether it became so."""
        ends = time.monotonic() + seconds
        while time.monotonic() < ends:
            if self.value(text):
                return True
            time.sleep(0.05)
        return False

    def said(self, name):
        """The text of an element."""
        return self.value(f"document.getElementById({json.dumps(name)}).textContent")

    def place(self, selector):
        """The middle of an element in the window, after it was scrolled there."""
        return self.value(f"(it => {{ it.scrollIntoView({{ block: 'center', inline: 'center' }}); const box = it.getBoundingClientRect(); "
                          f"return [box.x + box.width / 2, box.y + box.height / 2]; }})(document.querySelector({json.dumps(selector)}))")

    def type(self, selector, text):
        """Writes into a field in place of what it has, as keys do."""
        self.click(selector)
        self.value(f"document.querySelector({json.dumps(selector)}).select()")
        self.keys(text or "\b")

    def choose(self, selector, text):
        """Takes a choice of a list by keys: its first letters."""
        self.value(f"document.querySelector({json.dumps(selector)}).focus()")
        self.keys(text)

    def click(self, selector):
        """Clicks on an element."""
        raise NotImplementedError

    def keys(self, text):
        """Presses keys, one after the other."""
        raise NotImplementedError


class Chromium(Browser):
    """Chromium."""

    name = "Chromium"
    NOTES = "no fault in the console, and nobody is asked for anything"

    def __init__(self, command, folder, downloads):
        to, self.put = os.pipe()
        self.take, back = os.pipe()
        words = ["--headless=new", "--remote-debugging-pipe", "--no-first-run", "--disable-gpu", "--disable-extensions",
                 "--disable-background-networking", "--disable-dev-shm-usage", f"--user-data-dir={folder}",
                 *(["--no-sandbox"] if os.geteuid() == 0 else []), "about:blank"]

        def pipes():
            one, other = os.dup(to), os.dup(back)
            os.dup2(one, 3)
            os.dup2(other, 4)

        self.process = subprocess.Popen([command, *words], preexec_fn=pipes, close_fds=False, stdin=subprocess.DEVNULL,
                                        stdout=subprocess.DEVNULL, stderr=subprocess.DEVNULL)
        os.close(to)
        os.close(back)
        self.number, self.rest, self.events, self.session = 0, b"", [], None
        page = next(it for it in self.call("Target.getTargets")["targetInfos"] if it["type"] == "page")
        self.call("Browser.setDownloadBehavior", behavior="allow", downloadPath=str(downloads))
        self.session = self.call("Target.attachToTarget", targetId=page["targetId"], flatten=True)["sessionId"]
        for part in ("Page", "Runtime", "Network", "Log", "DOM"):
            self.call(f"{part}.enable")
        self.size(1300, 900)

    def message(self):
        """The next message of the browser."""
        while b"\0" not in self.rest:
            if not select.select([self.take], [], [], PATIENCE)[0]:
                raise TimeoutError("Chromium does not answer")
            more = os.read(self.take, 1 << 16)
            if not more:
                raise EOFError("Chromium has ended")
            self.rest += more
        one, self.rest = self.rest.split(b"\0", 1)
        return json.loads(one)

    def call(self, method, **words):
        """Calls the browser, and takes its answer."""
        self.number += 1
        call = {"id": self.number, "method": method, "params": words}
        if self.session is not None:
            call["sessionId"] = self.session
        os.write(self.put, json.dumps(call).encode() + b"\0")
        while True:
            message = self.message()
            if message.get("id") == self.number:
                if "error" in message:
                    raise RuntimeError(f"{method}: {message['error']}")
                return message["result"]
            self.events.append(message)

    def open(self, url):
        """Opens an address."""
        for one in ("about:blank", url):
            before = len(self.events)
            self.call("Page.navigate", url=one)
            while not any(it.get("method") == "Page.loadEventFired" for it in self.events[before:]):
                self.events.append(self.message())

    def value(self, text):
        answer = self.call("Runtime.evaluate", expression=text, awaitPromise=True, returnByValue=True)
        if "exceptionDetails" in answer:
            raise RuntimeError(f"{text[:200]}: {answer['exceptionDetails']}")
        return answer["result"].get("value")

    def size(self, width, height, media=""):
        """Sets the size of the window, and the medium, as `print`."""
        self.call("Emulation.setDeviceMetricsOverride", width=width, height=height, deviceScaleFactor=1, mobile=False)
        self.call("Emulation.setEmulatedMedia", media=media)

    def colours(self, scheme):
        """Asks for light or dark colours."""
        self.call("Emulation.setEmulatedMedia", features=[{"name": "prefers-color-scheme", "value": scheme}])

    def move(self, x, y):
        """Moves the pointer."""
        self.call("Input.dispatchMouseEvent", type="mouseMoved", x=x, y=y)

    def click(self, selector):
        x, y = self.place(selector)
        self.call("Input.dispatchMouseEvent", type="mousePressed", x=x, y=y, button="left", clickCount=1, buttons=1)
        self.call("Input.dispatchMouseEvent", type="mouseReleased", x=x, y=y, button="left", clickCount=1)

    def key(self, name, modifiers=0, commands=()):
        """Presses one key by its name."""
        code = {"Enter": 13, "Backspace": 8, "Tab": 9, "ArrowLeft": 37, "ArrowUp": 38, "ArrowRight": 39, "ArrowDown": 40, "Home": 36, "End": 35}.get(name)
        code = code or ord(name.upper())
        text = {"text": name} if len(name) == 1 and not modifiers else {}
        for kind in ("keyDown", "keyUp"):
            self.call("Input.dispatchKeyEvent", type=kind, key=name, windowsVirtualKeyCode=code, modifiers=modifiers,
                      **(text | {"commands": list(commands)} if kind == "keyDown" else {}))

    def keys(self, text):
        for letter in text:
            self.key("Backspace" if letter == "\b" else letter)

    def control(self, letter):
        """Presses a key together with Control."""
        self.key(letter, CONTROL)

    def paste(self, selector, text):
        """Pastes a text where an element is, by the clipboard."""
        self.value("(text => { const it = document.createElement('textarea'); it.id = 'clip'; document.body.append(it); it.value = text; it.focus(); it.select(); })"
                   f"({json.dumps(text)})")
        self.key("c", CONTROL, ["copy"])
        self.value("document.getElementById('clip').remove()")
        self.value(f"document.querySelector({json.dumps(selector)}).focus()")
        self.key("v", CONTROL, ["paste"])

    def drop(self, *paths):
        """Drops files on the page."""
        data = {"items": [], "files": [str(path) for path in paths], "dragOperationsMask": 1}
        x, y = self.place("#drop")
        for kind in ("dragEnter", "dragOver", "drop"):
            self.call("Input.dispatchDragEvent", type=kind, x=x, y=y, data=data)

    def shot(self, path):
        """A picture of the window."""
        pathlib.Path(path).write_bytes(base64.b64decode(self.call("Page.captureScreenshot", format="png")["data"]))

    def faults(self):
        """What the console has of faults, and whoever was asked for something."""
        wrong = [it["params"] for it in self.events if it.get("method") in ("Runtime.exceptionThrown", "Log.entryAdded")]
        wrong += [it["params"] for it in self.events if it.get("method") == "Runtime.consoleAPICalled" and it["params"]["type"] in ("error", "warning")]
        asked = {it["params"]["request"]["url"].partition(":")[0] for it in self.events if it.get("method") == "Network.requestWillBeSent"}
        return [str(it)[:300] for it in wrong] + [f"asked for {it}" for it in asked - {"file", "about", "blob", "data"}]

    def memory(self):
        """The bytes that the page's script holds, after what nobody has any more is gone."""
        self.call("HeapProfiler.collectGarbage")
        return self.call("Runtime.getHeapUsage")["usedSize"]

    def end(self):
        """Ends the browser."""
        self.session = None
        try:
            self.call("Browser.close")
            self.process.wait(PATIENCE)
        except (OSError, EOFError, TimeoutError, subprocess.TimeoutExpired):
            self.process.kill()
            self.process.wait()


class Firefox(Browser):
    """Firefox."""

    name = "Firefox"
    NOTES = "nothing is thrown in the page after it was loaded"
    KEYS = {"Enter": "\ue007", "\b": "\ue003", "ArrowLeft": "\ue012", "ArrowUp": "\ue013", "ArrowRight": "\ue014", "ArrowDown": "\ue015",
            "Home": "\ue011", "End": "\ue010", "Control": "\ue009"}

    def __init__(self, command, folder, downloads):
        folder = pathlib.Path(folder)
        prefs = {"marionette.port": 0, "browser.download.folderList": 2, "browser.download.dir": str(downloads), "browser.download.useDownloadDir": True,
                 "browser.helperApps.neverAsk.saveToDisk": "text/plain,image/svg+xml,application/zip", "browser.shell.checkDefaultBrowser": False,
                 "datareporting.policy.dataSubmissionEnabled": False, "browser.aboutwelcome.enabled": False, "app.update.enabled": False,
                 "browser.download.always_ask_before_handling_new_types": False, "browser.download.manager.addToRecentDocs": False,
                 "dom.disable_beforeunload": True, "network.captive-portal-service.enabled": False, "network.connectivity-service.enabled": False}
        (folder / "user.js").write_text("".join(f"user_pref({json.dumps(name)}, {json.dumps(value)});\n" for name, value in prefs.items()))
        self.process = subprocess.Popen([command, "--headless", "--marionette", "--no-remote", "--profile", str(folder), "about:blank"], stdin=subprocess.DEVNULL,
                                        stdout=subprocess.DEVNULL, stderr=subprocess.DEVNULL)
        try:
            self.begin(folder / "MarionetteActivePort")
        except BaseException:
            self.process.kill()
            self.process.wait()
            raise

    def begin(self, port):
        """Waits for the browser, and begins a session. It writes its port into a file."""
        ends = time.monotonic() + PATIENCE
        while not port.is_file() or not port.read_text().strip():
            if time.monotonic() > ends:
                raise TimeoutError("Firefox does not answer")
            time.sleep(0.1)
        self.socket = socket.create_connection(("127.0.0.1", int(port.read_text())), PATIENCE)
        self.rest, self.number, self.wrong = b"", 0, []
        self.message()
        self.call("WebDriver:NewSession", capabilities={"alwaysMatch": {"unhandledPromptBehavior": "accept"}})
        self.call("WebDriver:SetTimeouts", script=PATIENCE * 1000, pageLoad=PATIENCE * 1000)
        self.size(1300, 900)

    def message(self):
        """The next message of the browser."""
        while b":" not in self.rest:
            self.rest += self.more()
        size, rest = self.rest.split(b":", 1)
        while len(rest) < int(size):
            rest += self.more()
        self.rest = rest[int(size):]
        return json.loads(rest[:int(size)])

    def more(self):
        """More bytes of the browser."""
        more = self.socket.recv(1 << 16)
        if not more:
            raise EOFError("Firefox has ended")
        return more

    def call(self, command, **words):
        """Calls the browser, and takes its answer."""
        self.number += 1
        text = json.dumps([0, self.number, command, words]).encode()
        self.socket.sendall(str(len(text)).encode() + b":" + text)
        while True:
            kind, number, fault, answer = self.message()
            if kind == 1 and number == self.number:
                if fault:
                    raise RuntimeError(f"{command}: {fault['error']}: {fault['message']}")
                return answer

    def open(self, url):
        """Opens an address, and has the page note what is thrown there from then on."""
        self.faults()
        self.call("WebDriver:Navigate", url="about:blank")
        self.call("WebDriver:Navigate", url=url)
        self.call("WebDriver:ExecuteScript", args=[], sandbox="default", script=(
            "for (const kind of ['error', 'unhandledrejection']) window.addEventListener(kind, it => { const top = document.documentElement;"
            " top.dataset.faults = `${top.dataset.faults ?? ''}${it.message ?? it.reason}\\n`; });"))

    def value(self, text):
        script = ("const [text, done] = arguments; const page = window.wrappedJSObject ?? window; Promise.resolve(new Function('window', 'fttcanDesk', 'document', 'location', "
                  "`return (${text})`)(page, page.fttcanDesk, page.document, page.location)).then(it => done([it === undefined ? null : JSON.parse(JSON.stringify(it)), null]), fault => done([null, String(fault)]));")
        value, fault = self.call("WebDriver:ExecuteAsyncScript", script=script, args=[text], sandbox="default")["value"]
        if fault:
            raise RuntimeError(f"{text[:200]}: {fault}")
        return value

    def size(self, width, height, media=""):
        """Sets the size of the window. There is no medium to set."""
        self.call("WebDriver:SetWindowRect", width=width, height=height)
        return media == ""

    def element(self, selector):
        """An element by its selector."""
        it = self.call("WebDriver:FindElement", using="css selector", value=selector)["value"]
        return next(iter(it.values()))

    def actions(self, *chains):
        """Carries out actions of keys or of the mouse."""
        self.call("WebDriver:PerformActions", actions=list(chains))
        self.call("WebDriver:ReleaseActions")

    def move(self, x, y):
        """Moves the pointer."""
        self.call("WebDriver:PerformActions", actions=[{"type": "pointer", "id": "mouse", "actions": [{"type": "pointerMove", "x": round(x), "y": round(y), "duration": 0}]}])

    def click(self, selector):
        x, y = self.place(selector)
        self.actions({"type": "pointer", "id": "mouse", "actions": [{"type": "pointerMove", "x": round(x), "y": round(y), "duration": 0}, {"type": "pointerDown", "button": 0},
                                                                    {"type": "pointerUp", "button": 0}]})

    def key(self, name):
        """Presses one key by its name."""
        self.keys([self.KEYS.get(name, name)])

    def keys(self, text):
        pressed = [{"type": kind, "value": self.KEYS.get(letter, letter)} for letter in text for kind in ("keyDown", "keyUp")]
        self.actions({"type": "key", "id": "keys", "actions": pressed})

    def control(self, letter):
        """Presses a key together with Control."""
        held = self.KEYS["Control"]
        self.actions({"type": "key", "id": "keys", "actions": [{"type": "keyDown", "value": held}, {"type": "keyDown", "value": letter},
                                                               {"type": "keyUp", "value": letter}, {"type": "keyUp", "value": held}]})

    def paste(self, selector, text):
        """Pastes a text where an element is, by the clipboard."""
        self.value("(text => { const it = document.createElement('textarea'); it.id = 'clip'; document.body.append(it); it.value = text; it.focus(); it.select(); })"
                   f"({json.dumps(text)})")
        self.control("c")
        self.value("document.getElementById('clip').remove()")
        self.value(f"document.querySelector({json.dumps(selector)}).focus()")
        self.control("v")

    def drop(self, *paths):
        """Hands files over by the page's field for files: Firefox has no drop from outside here."""
        self.call("WebDriver:ElementSendKeys", id=self.element("#file"), text="\n".join(map(str, paths)))

    def shot(self, path):
        """A picture of the window."""
        pathlib.Path(path).write_bytes(base64.b64decode(self.call("WebDriver:TakeScreenshot", full=False)["value"]))

    def faults(self):
        """What the pages have noted of faults."""
        told = self.value("document.documentElement?.dataset.faults ?? ''")
        self.wrong += told.splitlines()
        self.value("void delete document.documentElement?.dataset.faults")
        return self.wrong

    def end(self):
        """Ends the browser."""
        try:
            self.call("Marionette:Quit", flags=["eForceQuit"])
            self.process.wait(30)
        except (OSError, EOFError, RuntimeError, subprocess.TimeoutExpired):
            self.process.kill()
            self.process.wait()
