"""A real browser without a window, Chromium, driven over its debugging pipe with nothing beside Python's own library.

    with Browser() as browser:
        browser.open("replay.html", "line=3")
        browser.key("ArrowRight")
        browser.wait("document.body.dataset.line === '4'")
        assert not browser.exceptions()

The browser reads commands from its descriptor 3 and writes answers and events to its descriptor 4, each JSON that
ends with a zero byte. Events are kept until the next page is opened. Whatever it is asked for, it has LIMIT seconds.
"""

import base64
import fcntl
import json
import os
import select
import shutil
import signal
import tempfile
import time
from pathlib import Path
from types import TracebackType
from typing import Any, Dict, List, Optional, Tuple, Type, Union

__all__ = ["Browser", "BrowserError", "LIMIT"]

LIMIT = 60.0
"""Seconds for whatever is asked of the browser, where nothing else is said."""

_PROGRAMS = ("chromium-headless-shell", "chromium")
_FLAGS = (
    "--headless",
    "--remote-debugging-pipe",
    "--hide-scrollbars",
    "--no-first-run",
    "--disable-gpu",
    "--disable-dev-shm-usage",
    "--disable-background-networking",
    "--disable-component-update",
    "--force-color-profile=srgb",
)
_DOMAINS = ("Page", "Runtime", "Network", "Log")
# Both stand above the descriptors that they become, so that neither is lost when the other is copied.
_ABOVE = 10

# The keys that write nothing, or something else than their name: the code, the virtual key, the text.
_KEYS: Dict[str, Tuple[str, int, str]] = {
    "ArrowLeft": ("ArrowLeft", 37, ""),
    "ArrowUp": ("ArrowUp", 38, ""),
    "ArrowRight": ("ArrowRight", 39, ""),
    "ArrowDown": ("ArrowDown", 40, ""),
    "PageUp": ("PageUp", 33, ""),
    "PageDown": ("PageDown", 34, ""),
    "End": ("End", 35, ""),
    "Home": ("Home", 36, ""),
    "Escape": ("Escape", 27, ""),
    "Tab": ("Tab", 9, ""),
    "Backspace": ("Backspace", 8, ""),
    "Delete": ("Delete", 46, ""),
    "Enter": ("Enter", 13, "\r"),
    " ": ("Space", 32, " "),
}
_MODIFIERS = {"Alt": 1, "Control": 2, "Meta": 4, "Shift": 8}


def _letter(key: str) -> Tuple[str, int, str]:
    """The code, the virtual key and the text of a key that writes its name."""
    kind = "Key" if key.isalpha() else "Digit" if key.isdigit() else ""
    return kind and f"{kind}{key.upper()}", ord(key.upper()), key


class BrowserError(Exception):
    """The browser is not there, has gone, took too long, refused a command, or a page's expression threw."""


def _program() -> str:
    for name in _PROGRAMS:
        found = shutil.which(name)
        if found:
            return found
    raise BrowserError(f"there is no browser: Debian's package {_PROGRAMS[0]} has one")


def _pipe() -> Tuple[int, int]:
    """A pipe with both ends at _ABOVE or higher, closed in whatever program is started."""
    low = os.pipe()
    high = tuple(fcntl.fcntl(end, fcntl.F_DUPFD_CLOEXEC, _ABOVE) for end in low)
    for end in low:
        os.close(end)
    return high[0], high[1]


class _Pipe:
    """Messages to and from a browser that was started, each JSON that ends with a zero byte."""

    def __init__(self, arguments: List[str]) -> None:
        commands, to_browser = _pipe()
        self._from_browser, answers = _pipe()
        self._to_browser = os.fdopen(to_browser, "wb")
        self._read = bytearray()
        self._process: Optional[int] = os.posix_spawn(
            arguments[0],
            arguments,
            os.environ,
            file_actions=[
                (os.POSIX_SPAWN_DUP2, commands, 3),
                (os.POSIX_SPAWN_DUP2, answers, 4),
                (os.POSIX_SPAWN_OPEN, 1, os.devnull, os.O_WRONLY, 0),
                (os.POSIX_SPAWN_OPEN, 2, os.devnull, os.O_WRONLY, 0),
            ],
            setpgroup=0,
        )
        os.close(commands)
        os.close(answers)

    def send(self, message: Dict[str, Any]) -> None:
        try:
            self._to_browser.write(json.dumps(message).encode() + b"\0")
            self._to_browser.flush()
        except OSError as error:
            raise BrowserError(f"the browser has gone: {error}") from error

    def receive(self, until: float) -> Optional[Dict[str, Any]]:
        """The next message, or none where the time has come."""
        searched = 0
        while (end := self._read.find(b"\0", searched)) < 0:
            searched = len(self._read)
            if not select.select([self._from_browser], [], [], max(0.0, until - time.monotonic()))[0]:
                return None
            got = os.read(self._from_browser, 1 << 20)
            if not got:
                raise BrowserError("the browser has gone")
            self._read += got
        message: Dict[str, Any] = json.loads(self._read[:end])
        del self._read[: end + 1]
        return message

    def close(self, seconds: float) -> None:
        """A browser whose pipe is closed ends; one that doesn't is ended, with all that it started."""
        if self._process is None:
            return
        try:
            self._to_browser.close()
        except OSError:
            pass
        os.close(self._from_browser)
        until = time.monotonic() + seconds
        while os.waitpid(self._process, os.WNOHANG)[0] == 0:
            if time.monotonic() > until:
                os.killpg(self._process, signal.SIGKILL)
                os.waitpid(self._process, 0)
                break
            time.sleep(0.02)
        self._process = None


class Browser:
    """One browser with one page in it; `downloads` is the folder that gets what the page saves."""

    def __init__(self, width: int = 1440, height: int = 900) -> None:
        self._folder = tempfile.TemporaryDirectory(prefix="browser-", ignore_cleanup_errors=True)
        self.downloads = Path(self._folder.name, "downloads")
        self.downloads.mkdir()
        root = ["--no-sandbox"] if os.geteuid() == 0 else []
        profile = f"--user-data-dir={self._folder.name}/profile"
        self._events: List[Dict[str, Any]] = []
        self._asked = 0
        self._session: Optional[str] = None
        self._pipe = _Pipe([_program(), *_FLAGS, *root, profile, "about:blank"])
        try:
            self._attach()
            self.size(width, height)
        except BaseException:
            self.close()
            raise

    def _attach(self) -> None:
        """To the page that stands open, and to its events."""
        pages = [target for target in self.do("Target.getTargets")["targetInfos"] if target["type"] == "page"]
        self._session = self.do("Target.attachToTarget", targetId=pages[0]["targetId"], flatten=True)["sessionId"]
        for domain in _DOMAINS:
            self.do(f"{domain}.enable")
        self.do("Browser.setDownloadBehavior", behavior="allow", downloadPath=str(self.downloads), eventsEnabled=True)

    def __enter__(self) -> "Browser":
        return self

    def __exit__(
        self, kind: Optional[Type[BaseException]], error: Optional[BaseException], trace: Optional[TracebackType]
    ) -> None:
        self.close()

    def close(self) -> None:
        """Ends the browser and removes what it saved."""
        self._pipe.close(5.0)
        self._folder.cleanup()

    def do(self, method: str, limit: float = LIMIT, **parameters: Any) -> Dict[str, Any]:
        """A command of the browser's protocol and its result; events that come meanwhile are kept."""
        self._asked += 1
        message: Dict[str, Any] = {"id": self._asked, "method": method, "params": parameters}
        if self._session is not None:
            message["sessionId"] = self._session
        self._pipe.send(message)
        until = time.monotonic() + limit
        while True:
            got = self._pipe.receive(until)
            if got is None:
                raise BrowserError(f"{method}: the browser did not answer in {limit:g} s")
            if got.get("id") == self._asked:
                break
            if "method" in got:
                self._events.append(got)
        if "error" in got:
            raise BrowserError(f"{method}: {got['error']['message']}")
        result: Dict[str, Any] = got["result"]
        return result

    def open(self, path: Union[str, Path], hash: str = "", limit: float = LIMIT) -> None:
        """Opens a file, anew where it is open already, until it is loaded. Events of earlier pages are forgotten."""
        url = Path(path).resolve().as_uri()
        self._go("about:blank", limit)
        self._events.clear()
        self._go(url + (f"#{hash}" if hash else ""), limit)

    def _go(self, url: str, limit: float) -> None:
        error = self.do("Page.navigate", limit, url=url).get("errorText")
        if error:
            raise BrowserError(f"{url}: {error}")
        # The page may have changed what stands behind the #.
        at = json.dumps(url.split("#")[0])
        self.wait(f"location.href.split('#')[0] === {at} && document.readyState === 'complete'", limit)

    def js(self, expression: str, limit: float = LIMIT) -> Any:
        """The value of an expression in the page, which JSON can say; of a promise that to which it comes."""
        result = self.do("Runtime.evaluate", limit, expression=expression, returnByValue=True, awaitPromise=True)
        if "exceptionDetails" in result:
            raise BrowserError(_thrown(result["exceptionDetails"]))
        return result["result"].get("value")

    def wait(self, expression: str, limit: float = LIMIT) -> None:
        """Until an expression in the page holds; one that throws does not, since a page may only be coming."""
        until = time.monotonic() + limit
        last = "it does not hold"
        while time.monotonic() < until:
            try:
                if self.js(expression, limit):
                    return
            except BrowserError as error:
                last = str(error)
            time.sleep(0.01)
        raise BrowserError(f"waited {limit:g} s for {expression}: {last}")

    def key(self, name: str) -> None:
        """A key pressed and let go, by its name or its letter, modifiers before it: "ArrowRight", " ", "Shift+Tab"."""
        *held, key = name.split("+") if len(name) > 1 else [name]
        modifiers = sum(_MODIFIERS[modifier] for modifier in held)
        code, virtual, text = _KEYS.get(key) or _letter(key)
        common = {"key": key, "code": code, "windowsVirtualKeyCode": virtual, "modifiers": modifiers}
        writes = text if modifiers & ~_MODIFIERS["Shift"] == 0 else ""
        self.do("Input.dispatchKeyEvent", type="keyDown" if writes else "rawKeyDown", text=writes, **common)
        self.do("Input.dispatchKeyEvent", type="keyUp", **common)

    def click(self, x: float, y: float) -> None:
        """The mouse goes there, in pixels of the window, and its left button is pressed and let go."""
        self.do("Input.dispatchMouseEvent", type="mouseMoved", x=x, y=y)
        for kind in ("mousePressed", "mouseReleased"):
            self.do("Input.dispatchMouseEvent", type=kind, x=x, y=y, button="left", clickCount=1)

    def click_on(self, selector: str) -> None:
        """The middle of the first element that a selector finds, brought into view first."""
        place = self.js(
            f"""(() => {{
                const found = document.querySelector({json.dumps(selector)});
                if (found === null) return null;
                found.scrollIntoView({{block: 'center', inline: 'center', behavior: 'instant'}});
                const box = found.getBoundingClientRect();
                return [box.x + box.width / 2, box.y + box.height / 2];
            }})()"""
        )
        if place is None:
            raise BrowserError(f"nothing to click on: {selector}")
        self.click(*place)

    def type(self, text: str) -> None:
        """Text that comes to where the page is being written, as if pasted there."""
        self.do("Input.insertText", text=text)

    def drop(self, x: float, y: float, path: Union[str, Path]) -> None:
        """A file dragged to there and let go."""
        data = {"items": [], "files": [str(Path(path).resolve())], "dragOperationsMask": 1}
        for kind in ("dragEnter", "dragOver", "drop"):
            self.do("Input.dispatchDragEvent", type=kind, x=x, y=y, data=data)

    def size(self, width: int, height: int) -> None:
        """Of the window, in pixels."""
        self.do("Emulation.setDeviceMetricsOverride", width=width, height=height, deviceScaleFactor=1, mobile=False)

    def media(self, kind: str) -> None:
        """The style that the page has, that for "print" or that for "screen"; "" for that of what is done."""
        self.do("Emulation.setEmulatedMedia", media=kind)

    def scripts(self, on: bool) -> None:
        """Whether pages opened from now on may run JavaScript; `js` may always."""
        self.do("Emulation.setScriptExecutionDisabled", value=not on)

    def shot(self, path: Union[str, Path], whole: bool = False) -> None:
        """What the window shows, or the whole page, as a PNG."""
        picture = self.do("Page.captureScreenshot", format="png", captureBeyondViewport=whole)
        Path(path).write_bytes(base64.b64decode(picture["data"]))

    def pdf(self) -> bytes:
        """The page printed, on paper of the size that its style asks for."""
        return base64.b64decode(self.do("Page.printToPDF", preferCSSPageSize=True)["data"])

    def download(self, limit: float = LIMIT) -> Path:
        """The file in `downloads` that was saved last, whole. Call it once for each that is saved."""
        until = time.monotonic() + limit
        while not (ended := self._ended()):
            got = self._pipe.receive(until)
            if got is None:
                raise BrowserError(f"nothing was saved in {limit:g} s")
            self._events.append(got)
        self._events.remove(ended)
        begun = next(
            event["params"]
            for event in self._events
            if event["method"] == "Browser.downloadWillBegin" and event["params"]["guid"] == ended["params"]["guid"]
        )
        return self.downloads / begun["suggestedFilename"]

    def _ended(self) -> Optional[Dict[str, Any]]:
        for event in self._events:
            if event["method"] == "Browser.downloadProgress" and event["params"]["state"] != "inProgress":
                if event["params"]["state"] == "canceled":
                    raise BrowserError("the file could not be saved")
                return event
        return None

    def exceptions(self) -> List[str]:
        """What the page threw and did not catch."""
        return [_thrown(details["exceptionDetails"]) for details in self._told("Runtime.exceptionThrown")]

    def console(self) -> List[str]:
        """What the page wrote to its console, and what the browser did: a policy broken, a file that is not there."""
        written = [
            " ".join(str(argument.get("value", argument.get("description"))) for argument in line["args"])
            for line in self._told("Runtime.consoleAPICalled")
        ]
        return written + [entry["entry"]["text"] for entry in self._told("Log.entryAdded")]

    def requests(self) -> List[str]:
        """The address of everything that the page fetched, itself first."""
        return [request["request"]["url"] for request in self._told("Network.requestWillBeSent")]

    def _told(self, method: str) -> List[Dict[str, Any]]:
        # A command's answer comes behind the events before it: any that is still on its way is kept now.
        self.do("Runtime.evaluate", expression="0")
        return [event["params"] for event in self._events if event["method"] == method]


def _thrown(details: Dict[str, Any]) -> str:
    """The text of an exception, where it has one with its trace."""
    thrown = details.get("exception", {})
    return str(thrown.get("description") or thrown.get("value") or details["text"])
