"""The proved code as a page has it, called in a browser and held against the native calls and the judge.

Every vector and example: the listing, of each line the report and the words that changed, and the reasons. Scripts
that portions cut at odd places. Random scripts of every flavour against the judge's listing. And that code with a byte
changed, or cut short, is seen to be other code.
"""

import base64
import json
import re
import subprocess
import sys
from typing import Any, Dict, Iterable, List

from browser import Browser, BrowserError
from checks import ROOT, Checks
from world import examples, told, vectors

CODE = ROOT / "target" / "wasm" / "fugu.wasm"
LINES = 100_000
"""Of each random script."""
SEED = 27
PORTION = 65536
"""The bytes of a script that the page lends at a time."""
HEADER = "line,answer,value,trap,upcall,moved\n"
NO_NODE = "1,0,0,0,0"
"""How each line is answered on memory that is no node."""

# What is called in the page: a script and the code come as base64, the bytes of a line go as digits.
IN_PAGE = """
let calls = null;
const decoded = text => Uint8Array.from(atob(text), sign => sign.charCodeAt(0));
const digits = bytes => Array.from(bytes, byte => byte.toString(16).padStart(2, '0')).join('');
const load = async code => { calls = await provedCalls(decoded(code)); };
const reports = script => {
  const told = [];
  calls.play(calls.powerOn(), decoded(script), (bytes, report) => told.push(report));
  return told;
};
const rows = (script, memory) => {
  const told = [];
  calls.play(memory, decoded(script), (...row) => told.push([digits(row[0]), row[1], row[2]].join('|')));
  return told;
};
"""


class Page:
    """A page with the code in it, and nothing else."""

    def __init__(self, browser: Browser) -> None:
        self._browser = browser
        rooms = [(ROOT / "replay" / "page" / room).read_text() for room in ("run.js", "proved.js")]
        script = json.dumps("\n".join(["'use strict';", *rooms, IN_PAGE]))
        browser.js(f"document.head.append(Object.assign(document.createElement('script'), {{text: {script}}}))")

    def load(self, code: bytes) -> None:
        self._browser.js(f"load('{_encoded(code)}')")

    def value(self, expression: str) -> Any:
        return self._browser.js(expression)

    def listing(self, script: bytes) -> str:
        return _listing(self.value(f"reports('{_encoded(script)}')"))

    def rows(self, script: bytes, memory: str = "calls.powerOn()") -> List[str]:
        """Of each line its bytes, its report and the words that it changed."""
        rows: List[str] = self.value(f"rows('{_encoded(script)}', {memory})")
        return rows

    def reasons(self, script: bytes) -> str:
        return str(self.value(f"calls.reasons(decoded('{_encoded(script)}'))"))


def _encoded(data: bytes) -> str:
    return base64.b64encode(data).decode()


def _listing(reports: Iterable[str]) -> str:
    return HEADER + "".join(f"{i},{report}\n" for i, report in enumerate(reports, 1))


class Native:
    """A run as the native calls made it: the data in the page of bin/replay."""

    def __init__(self, script: bytes) -> None:
        page = told("replay", script=script).decode()
        data = page.split('id="run">', 1)[1].split("</script>", 1)[0].strip().splitlines()
        start = next(i for i, line in enumerate(data) if line.startswith("start "))
        self.start = data[start].removeprefix("start ")
        self.rows = [self._row(line) for line in data[start + 1 : data.index("end")]]

    @staticmethod
    def _row(line: str) -> str:
        _, text, report, changes, _ = line.split("|")
        digits = re.sub(r"\\x(..)|(.)", lambda sign: sign[1] or f"{ord(sign[2]):02x}", text)
        return "|".join((digits, report, changes))


SCRIPTS = vectors() + examples()


def make() -> None:
    """The code, by the command that makes it."""
    subprocess.run([str(ROOT / "bin" / "wasm")], timeout=600, check=True)


def check_scripts(checks: Checks, page: Page) -> None:
    lines = 0
    for path in SCRIPTS:
        name, script = path.relative_to(ROOT), path.read_bytes()
        rows = page.rows(script)
        lines += len(rows)
        checks.equal(f"{name}: report and words of every line", rows, Native(script).rows)
        listing = _listing(row.split("|")[1] for row in rows)
        checks.equal(f"{name}: listing", listing, path.with_suffix(".listing").read_text())
        checks.equal(f"{name}: reasons", page.reasons(script), told("why", "--all", script=script).decode())
    print(f"{len(SCRIPTS)} vectors and examples, {lines:,} lines", flush=True)


def odd_scripts() -> Dict[str, bytes]:
    """Scripts whose lines end where portions do, or go on over many."""
    short = b"S,1\nA,1,7\nE,0\nD\n" * 8
    odd = {
        "no line": b"",
        "an empty line": b"\n",
        "no last newline": b"S,1\nA,1,7",
        "every byte": b"".join(bytes((byte, 10)) for byte in range(256)),
        "every byte in a line": bytes(range(256)) + short,
        "a line of a megabyte": b"S,1\n" + b"A" * (1 << 20) + b"\n" + short,
        "a last line of a megabyte": short + b"1" * (1 << 20),
        "as long as a portion": b"x" * (PORTION - 1) + b"\n",
        "as long as two, no newline": b"x" * (2 * PORTION),
    }
    for before in range(PORTION - 20, PORTION + 4):
        odd[f"a portion that ends behind {before} bytes"] = b"x" * (before - 1) + b"\n" + short
    return odd


def check_portions(checks: Checks, page: Page) -> None:
    for name, script in odd_scripts().items():
        checks.equal(name, page.rows(script), Native(script).rows)
        checks.equal(f"{name}: reasons", page.reasons(script), told("why", "--all", script=script).decode())


def check_memory(checks: Checks, page: Page) -> None:
    """Power-on, and memory that is none or too short."""
    size = page.value("calls.size")
    start = page.value(f"changesText(new Uint32Array({size}), calls.powerOn())")
    checks.equal("the memory at power-on", start, Native(b"").start)
    checks.holds("power-on is a node", page.value("calls.test(calls.powerOn())"))
    checks.holds("and with a word behind it", page.value("calls.test(Uint32Array.of(...calls.powerOn(), 7))"))
    script = (ROOT / "examples" / "whole-case.script").read_bytes()
    for name, words in {"none": 0, "a word": 1, "one too few": size - 1, "zeros": size}.items():
        memory = f"new Uint32Array({words})"
        wanted = [f"{line.hex()}|{NO_NODE}|" for line in script.splitlines()]
        checks.equal(f"no node: {name}", page.rows(script, memory), wanted)
        checks.holds(f"no node by its test: {name}", not page.value(f"calls.test({memory})"))


def check_random(checks: Checks, page: Page) -> None:
    flavours = [line.split()[0] for line in told("scripts", "--list").decode().splitlines()]
    checks.holds("there are flavours", len(flavours) > 0)
    for flavour in flavours:
        script = told("scripts", str(SEED), str(LINES), flavour)
        checks.equal(f"random {flavour}", page.listing(script), told("judge", script=script).decode())
    print(f"{len(flavours)} flavours, {LINES * len(flavours):,} random lines", flush=True)


def check_form(checks: Checks, page: Page, code: bytes) -> None:
    """The code takes nothing from the page, has the calls of the header, and is the same whenever it is made."""
    module = f"new WebAssembly.Module(decoded('{_encoded(code)}'))"
    checks.equal("the code takes nothing", page.value(f"WebAssembly.Module.imports({module})"), [])
    declared = re.findall(r"^uint32_t (fugu_[a-z_]+)\(", (ROOT / "capi" / "fugu.h").read_text(), re.MULTILINE)
    names = page.value(f"WebAssembly.Module.exports({module}).map(one => one.name)")
    checks.equal("the code has the calls of the header", sorted(names), sorted([*declared, "__heap_base", "memory"]))
    checks.holds("the code names no file of this folder", str(ROOT).encode() not in code)
    kept = CODE.with_name("kept.wasm")
    CODE.replace(kept)
    make()
    checks.holds("the code made again is the same", CODE.read_bytes() == code)
    # The one made first, so that what was built with it is not older.
    kept.replace(CODE)


def differs(page: Page, code: bytes) -> bool:
    """Whether the listings of the examples tell that this is other code."""
    try:
        page.load(code)
        return any(page.listing(path.read_bytes()) != path.with_suffix(".listing").read_text() for path in SCRIPTS)
    except BrowserError:
        return True


def check_wrong_code(checks: Checks, page: Page, code: bytes) -> None:
    checks.holds("the code itself is not taken for other", not differs(page, code))
    for length in (0, 7, len(code) // 2, len(code) - 1):
        checks.fails(f"code cut to {length} bytes is refused", lambda: page.load(code[:length]))
    # Each place that writes a comma, i32.const 44, writes the sign behind it instead.
    places = [found.start() + 1 for found in re.finditer(rb"\x41\x2c", code)]
    seen = [differs(page, code[:at] + b"\x2d" + code[at + 1 :]) for at in places]
    share = f"{sum(seen)} of {len(seen)}"
    checks.holds("code with a byte changed is seen to be other", sum(seen) > len(seen) / 2, share)


def main() -> int:
    checks = Checks()
    make()
    code = CODE.read_bytes()
    print(f"the code has {len(code):,} bytes")
    with Browser() as browser:
        page = Page(browser)
        page.load(code)
        for check in (check_memory, check_portions, check_scripts, check_random):
            check(checks, page)
        check_form(checks, page, code)
        check_wrong_code(checks, page, code)
        checks.equal("nothing was thrown", browser.exceptions(), [])
    return checks.summary()


if __name__ == "__main__":
    sys.exit(main())
