"""Browsers without a window, spoken to with Python's own library alone: Chromium by the two pipes of its protocol of
developer tools, and Firefox by the socket of its Marionette."""
from __future__ import annotations

import contextlib
import fcntl
import json
import os
import select
import shutil
import socket
import subprocess
import sys
import tempfile
import time
from typing import Any, Iterable

CHROMES = ("chromium", "chromium-browser", "google-chrome", "google-chrome-stable")
FIREFOXES = ("firefox-esr", "firefox")
SECONDS = 120
FIRST_FREE = 10  # a descriptor that nothing else has
# Gives a command two pipes as its descriptors 3 and 4, which Chromium reads and writes.
START = "import os, sys; os.dup2(int(sys.argv[1]), 3); os.dup2(int(sys.argv[2]), 4); os.execvp(sys.argv[3], " \
    "sys.argv[3:])"
KEYS = {"Enter": (13, "\r"), "Escape": (27, ""), "Tab": (9, ""), "ArrowDown": (40, ""), "ArrowUp": (38, ""),
        "ArrowLeft": (37, ""), "ArrowRight": (39, ""), "Home": (36, ""), "End": (35, ""), "Backspace": (8, ""),
        "+": (187, "+"), "-": (189, "-"), "0": (48, "0")}
MIDDLE = """const it = document.querySelector(arguments[0]);
it.scrollIntoView({block: 'center', inline: 'center'});
const box = it.getBoundingClientRect();
return [box.left + box.width / 2, box.top + box.height / 2];"""
CHOOSE = """const it = document.querySelector(arguments[0]);
it.value = arguments[1];
it.dispatchEvent(new Event('change', {bubbles: true}));
return it.value;"""


def first_of(names: Iterable[str]) -> str | None:
    return next(filter(None, map(shutil.which, names)), None)


def chrome() -> str | None:
    return first_of(CHROMES)


def firefox() -> str | None:
    return first_of(FIREFOXES)


def missing() -> str:
    """Returns what isn't there, or nothing."""
    return "" if chrome() else "chromium"


def end_process(process: subprocess.Popen[bytes]) -> None:
    """Ends a process that was started here, and waits for it."""
    process.terminate()
    try:
        process.wait(20)
    except subprocess.TimeoutExpired:
        process.kill()
        process.wait()


class Browser:
    """A Chromium with a profile of its own, which ends with `close`, or as its pipes do."""

    def __init__(self) -> None:
        self.room = tempfile.TemporaryDirectory(prefix="cmh-")
        self.number, self.rest = 0, b""
        self.session: str | None = None
        self.events: list[tuple[str, dict[str, Any]]] = []
        ours, theirs = pipes(), pipes()
        self.writes, self.reads = ours[1], theirs[0]
        words = [sys.executable, "-c", START, str(ours[0]), str(theirs[1]), chrome() or CHROMES[0], *self.words()]
        self.process = subprocess.Popen(words, stdin=subprocess.DEVNULL, stdout=subprocess.DEVNULL,
                                        stderr=subprocess.DEVNULL, pass_fds=(ours[0], theirs[1]),
                                        env={**os.environ, "HOME": self.room.name, "TMPDIR": self.room.name})
        os.close(ours[0])
        os.close(theirs[1])
        try:
            target = self.ask("Target.createTarget", url="about:blank")["targetId"]
            self.session = self.ask("Target.attachToTarget", targetId=target, flatten=True)["sessionId"]
            for domain in ("Page", "Network", "Log", "Runtime", "Accessibility"):
                self.ask(f"{domain}.enable")
            self.ask("Performance.enable", timeDomain="threadTicks")
        except BaseException:
            self.close()
            raise

    def words(self) -> list[str]:
        return ["--headless=new", f"--user-data-dir={self.room.name}/profile", "--disable-gpu",
                "--window-size=1300,900", "--remote-debugging-pipe", "--disable-dev-shm-usage", "--no-first-run",
                *(["--no-sandbox"] if os.geteuid() == 0 else []), "about:blank"]

    def close(self) -> None:
        """Ends the browser, and removes its folder."""
        with contextlib.suppress(OSError, RuntimeError, EOFError):
            self.session = None
            self.ask("Browser.close")
        for descriptor in (self.writes, self.reads):
            os.close(descriptor)
        end_process(self.process)
        shutil.rmtree(self.room.name, ignore_errors=True)
        self.room.cleanup()

    def ask(self, name: str, **params: Any) -> Any:
        """Gives a command of the protocol of developer tools, and returns its result."""
        self.number += 1
        message: dict[str, Any] = {"id": self.number, "method": name, "params": params}
        message.update({"sessionId": self.session} if self.session else {})
        data = json.dumps(message).encode() + b"\0"
        while data:
            data = data[os.write(self.writes, data):]
        while True:
            answer = self.next_message()
            if answer.get("id") == self.number:
                if "error" in answer:
                    raise RuntimeError(f"{name}: {answer['error']}")
                return answer["result"]

    command = ask

    def next_message(self) -> dict[str, Any]:
        """Returns the next message. An event is kept too."""
        while b"\0" not in self.rest:
            if not select.select([self.reads], [], [], SECONDS)[0]:
                raise RuntimeError(f"chromium says nothing for {SECONDS} s")
            read = os.read(self.reads, 1 << 20)
            if not read:
                raise EOFError("chromium has ended")
            self.rest += read
        text, _, self.rest = self.rest.partition(b"\0")
        message: dict[str, Any] = json.loads(text)
        if "method" in message:
            self.events.append((message["method"], message["params"]))
        return message

    def open(self, path: str) -> None:
        """Opens a file, with what stands behind a # in its address. What was logged before is gone. (A number makes
        each address another one: where only what is behind a # changes, nothing is loaded.)"""
        self.run("return 1")
        self.events.clear()
        file, mark, place = path.partition("#")
        self.ask("Page.navigate", url=f"file://{file}?{self.number}{mark}{place}")
        while not any(name == "Page.loadEventFired" for name, _ in self.events):
            self.next_message()

    def run(self, script: str, *args: Any) -> Any:
        """Runs a script in the page, and returns what it returns, or what it promises."""
        expression = f"(async function () {{ {script} }}).apply(null, {json.dumps(list(args))})"
        found = self.ask("Runtime.evaluate", expression=expression, returnByValue=True, awaitPromise=True)
        if "exceptionDetails" in found:
            raise RuntimeError(json.dumps(found["exceptionDetails"])[:600])
        return found["result"].get("value")

    def worked(self) -> float:
        """Returns for how many ms a processor has worked for the thread of the page."""
        found = {row["name"]: row["value"] for row in self.ask("Performance.getMetrics")["metrics"]}
        return 1000 * float(found["TaskDuration"])

    def log(self) -> list[str]:
        """Returns what the console and the browser itself have said of the page."""
        self.run("return 1")
        found = []
        for name, params in self.events:
            if name == "Log.entryAdded":
                found.append(params["entry"]["text"])
            elif name == "Runtime.consoleAPICalled":
                found.append(" ".join(str(it.get("value")) for it in params["args"]))
            elif name == "Runtime.exceptionThrown":
                found.append(json.dumps(params["exceptionDetails"])[:300])
        return found

    def requests(self) -> list[str]:
        """Returns the addresses that the page has asked for, itself too, but for those that its policy refused."""
        self.run("return 1")
        found: dict[str, str] = {}
        refused: set[str] = set()
        for name, params in self.events:
            if name == "Network.requestWillBeSent":
                found[params["requestId"]] = params["request"]["url"]
            elif params.get("blockedReason") == "csp":
                refused.add(params["requestId"])
        return [url for key, url in found.items() if key not in refused]

    def click(self, selector: str) -> None:
        """Clicks on the middle of an element, as a mouse does."""
        x, y = self.run(MIDDLE, selector)
        self.move_to(x, y)
        for kind in ("mousePressed", "mouseReleased"):
            self.ask("Input.dispatchMouseEvent", type=kind, x=x, y=y, button="left", clickCount=1)

    def hover(self, selector: str) -> None:
        self.move_to(*self.run(MIDDLE, selector))

    def move_to(self, x: float, y: float) -> None:
        self.ask("Input.dispatchMouseEvent", type="mouseMoved", x=x, y=y)

    def write(self, selector: str, text: str) -> None:
        self.run("document.querySelector(arguments[0]).focus()", selector)
        self.ask("Input.insertText", text=text)

    def choose(self, selector: str, value: str) -> Any:
        """Chooses an option of a list."""
        return self.run(CHOOSE, selector, value)

    def press(self, *keys: str) -> None:
        for key in keys:
            code, text = KEYS[key]
            more = {"key": key, "windowsVirtualKeyCode": code}
            self.ask("Input.dispatchKeyEvent", type="keyDown" if text else "rawKeyDown", text=text, **more)
            self.ask("Input.dispatchKeyEvent", type="keyUp", **more)

    def size(self, width: int, height: int = 900) -> None:
        self.ask("Emulation.setDeviceMetricsOverride", width=width, height=height, deviceScaleFactor=1, mobile=False)


def pipes() -> list[int]:
    """Returns the two ends of a pipe, none of which is 3 or 4."""
    found = []
    for descriptor in os.pipe():
        found.append(fcntl.fcntl(descriptor, fcntl.F_DUPFD_CLOEXEC, FIRST_FREE))
        os.close(descriptor)
    return found


class Firefox:
    """A Firefox with a profile of its own."""

    def __init__(self) -> None:
        self.room = tempfile.TemporaryDirectory(prefix="cmh-")
        self.number, self.rest = 0, b""
        self.socket: socket.socket | None = None
        with open(f"{self.room.name}/user.js", "w", encoding="utf-8") as file:
            file.write('user_pref("marionette.port", 0);\nuser_pref("browser.shell.checkDefaultBrowser", false);\n'
                       'user_pref("datareporting.policy.dataSubmissionEnabled", false);\n')
        words = [firefox() or FIREFOXES[0], "--headless", "--marionette", "--profile", self.room.name, "--no-remote"]
        self.process = subprocess.Popen(words, stdin=subprocess.DEVNULL, stdout=subprocess.DEVNULL,
                                        stderr=subprocess.DEVNULL, env={**os.environ, "HOME": self.room.name})
        try:
            self.socket = socket.create_connection(("127.0.0.1", self.port()), SECONDS)
            self.next_message()
            self.ask("WebDriver:NewSession")
            self.ask("WebDriver:SetWindowRect", width=1300, height=900)
        except BaseException:
            self.close()
            raise

    def port(self) -> int:
        """Waits for the port that Firefox has chosen."""
        until = time.monotonic() + SECONDS
        while time.monotonic() < until and self.process.poll() is None:
            with contextlib.suppress(OSError, ValueError):
                with open(f"{self.room.name}/MarionetteActivePort", encoding="utf-8") as file:
                    return int(file.read())
            time.sleep(0.1)
        raise RuntimeError("firefox names no port")

    def close(self) -> None:
        with contextlib.suppress(OSError, RuntimeError, EOFError, AttributeError):
            self.ask("Marionette:Quit", flags=["eForceQuit"])
        if self.socket:
            self.socket.close()
        end_process(self.process)
        shutil.rmtree(self.room.name, ignore_errors=True)
        self.room.cleanup()

    def ask(self, name: str, **params: Any) -> Any:
        self.number += 1
        data = json.dumps([0, self.number, name, params]).encode()
        self.wire().sendall(f"{len(data)}:".encode() + data)
        _, _, fault, result = self.next_message()
        if fault:
            raise RuntimeError(f"{name}: {fault['message']}")
        return result.get("value") if isinstance(result, dict) and "value" in result else result

    def next_message(self) -> Any:
        while b":" not in self.rest:
            self.receive()
        number, _, self.rest = self.rest.partition(b":")
        while len(self.rest) < int(number):
            self.receive()
        text, self.rest = self.rest[:int(number)], self.rest[int(number):]
        return json.loads(text)

    def wire(self) -> socket.socket:
        if self.socket is None:
            raise EOFError("firefox has ended")
        return self.socket

    def receive(self) -> None:
        read = self.wire().recv(1 << 20)
        if not read:
            raise EOFError("firefox has ended")
        self.rest += read

    def open(self, path: str) -> None:
        self.ask("WebDriver:Navigate", url="about:blank")
        self.ask("WebDriver:Navigate", url=f"file://{path}")

    def run(self, script: str, *args: Any) -> Any:
        return self.ask("WebDriver:ExecuteScript", script=script, args=list(args))

    def element(self, selector: str) -> str:
        found: dict[str, str] = self.ask("WebDriver:FindElement", using="css selector", value=selector)
        return next(iter(found.values()))

    def click(self, selector: str) -> None:
        self.run("document.querySelector(arguments[0]).scrollIntoView({block: 'center'})", selector)
        self.ask("WebDriver:ElementClick", id=self.element(selector))

    def write(self, selector: str, text: str) -> None:
        self.ask("WebDriver:ElementSendKeys", id=self.element(selector), text=text)

    def choose(self, selector: str, value: str) -> Any:
        return self.run(CHOOSE, selector, value)

    def role(self, selector: str) -> tuple[str, str]:
        """Returns what an element is to a reader of screens, and its name."""
        found = self.element(selector)
        return (self.ask("WebDriver:GetComputedRole", id=found), self.ask("WebDriver:GetComputedLabel", id=found))

    def print(self) -> str:
        """Returns the page as PDF, in base 64."""
        return str(self.ask("WebDriver:Print", shrinkToFit=True))
