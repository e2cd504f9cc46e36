"""What the checks are given: the browser, the project's programs, and pages that the program made."""

from __future__ import annotations

import subprocess
from collections.abc import Callable
from functools import lru_cache
from pathlib import Path

from browser import Browser, BrowserError
from checks import ROOT

LIMIT = 120.0
"""Seconds for a program of the project."""
SOON = 20.0
"""Seconds for what a page does when it is opened, or asked for something."""

PICTURES = ROOT / "target" / "replay"

_BUILT_BY = {
    "fugu": ("programs", []),
    "why": ("programs", ["--all"]),
    "judge": ("judge", []),
    "scripts": ("judge", ["--list"]),
    "desk": ("desk", ["/dev/null/no"]),
    "replay": ("replay", ["--empty"]),
}
"""In which crate a program is, and what its command is called with so that it is built and does nothing."""


@lru_cache(maxsize=None)
def program(name: str) -> str:
    """The path of a program, built by its command: called by itself it takes a tenth of the command's time."""
    crate, arguments = _BUILT_BY[name]
    subprocess.run([str(ROOT / "bin" / name), *arguments], stdin=subprocess.DEVNULL, capture_output=True, timeout=900)
    return str(ROOT / crate / "target" / "release" / name)


def told(name: str, *arguments: str | Path, script: bytes = b"") -> bytes:
    """What a program of the project writes for a script."""
    command = [program(name), *map(str, arguments)]
    return subprocess.run(command, input=script, capture_output=True, timeout=LIMIT, check=True).stdout


def examples() -> list[Path]:
    return sorted((ROOT / "examples").glob("*.script"))


def vectors() -> list[Path]:
    return sorted((ROOT / "vectors").glob("*/*.script"))


def example(name: str) -> bytes:
    return (ROOT / "examples" / f"{name}.script").read_bytes()


def lines_of(script: bytes) -> list[bytes]:
    """A script's lines, as docs/LISTING.md parts them."""
    lines = script.split(b"\n")
    return lines[:-1] if lines[-1] == b"" else lines


class World:
    """The browser, and a folder for the pages. Where there is an edit, each page gets it once it is made."""

    def __init__(self, browser: Browser, folder: Path, edit: Callable[[str], str] | None = None) -> None:
        self.browser = browser
        self.folder = folder
        self._edit = edit
        self._pages: dict[tuple[bytes, tuple[str, ...]], Path] = {}

    def edited(self, folder: Path, edit: Callable[[str], str]) -> World:
        """The same with every page edited."""
        folder.mkdir()
        return World(self.browser, folder, edit)

    def page(self, script: bytes, *options: str) -> Path:
        """The page of a script, made once."""
        key = (script, options)
        if key not in self._pages:
            made = told("replay", *options, script=script)
            self._pages[key] = self.file(made.decode())
        return self._pages[key]

    def file(self, text: str) -> Path:
        """A page of this text, with the edit if there is one."""
        path = self.folder / f"{len(list(self.folder.iterdir()))}.html"
        path.write_text(self._edit(text) if self._edit else text)
        return path

    def open(self, script: bytes, *options: str, hash: str = "") -> None:
        """Opens the page of a script, until it is drawn and its own run was played again."""
        self.show(self.page(script, *options), hash)

    def show(self, page: Path, hash: str = "") -> None:
        """Until the page has said whether its run agrees; one that threw never does."""
        self.browser.open(page, hash)
        thrown = self.browser.exceptions()
        if thrown:
            raise BrowserError(f"the page threw: {thrown[0]}")
        self.browser.wait("document.body.dataset.checked !== undefined", SOON)

    def picture(self, name: str) -> None:
        """What the window shows, for people to look at; of a page that is edited nothing is kept."""
        if self._edit is None:
            PICTURES.mkdir(parents=True, exist_ok=True)
            self.browser.shot(PICTURES / f"{name}.png")

    def at(self) -> int:
        """The line at which the page is."""
        return int(self.browser.js("document.body.dataset.line"))

    def text(self, selector: str) -> str:
        return str(self.browser.js(f"document.querySelector({selector!r}).textContent"))
