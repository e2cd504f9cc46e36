"""Every page opens: no exception, no line in the console, nothing fetched; the run, played again there by the proved
code, agrees; scripts and titles of any bytes are shown as they are, and never run."""

from __future__ import annotations

from collections.abc import Iterator
from functools import partial
from pathlib import Path

import judge
from checks import ROOT
from named import Named, holds, same
from world import World, example, examples, lines_of, told, vectors

LONG = 128
"""Bytes of a line that are shown."""
ROWS = 120
"""Rows of the listing that are in the document at a time."""

WHOLE = example("whole-case")

MARKUP = b"""</script><script>document.body.dataset.ran = 1</script>
<img src=x onerror="document.body.dataset.ran = 1">
"""
"""What a page must not run, wherever it stands."""

ODD = {
    "no lines": b"",
    "an empty line": b"\n",
    "no last newline": b"S,1\nA,1,7",
    "bytes 0 to 255": bytes(range(256)) + b"\n" + b"".join(bytes([byte, 10]) for byte in range(256) if byte != 10),
    "markup": MARKUP,
    "the end of an XML section": b"]]>\n<![CDATA[\n&amp;\n&\n",
    "places of the template": b"{{rows}}\n{{run}}\n{{script}}\n",
    "data lines": b"1|S,1|0,0,0,0,0||\nend\nfugu-replay 1\n",
    "a line of a megabyte": b"A,1," + b"7" * 1_000_000 + b"\nS,1\n",
}


def checks() -> Iterator[Named]:
    for path in vectors():
        yield f"opens: {path.relative_to(ROOT)}", partial(at_its_end, script=path.read_bytes())
    for path in examples():
        yield f"opens: {path.relative_to(ROOT)}", partial(whole, script=path.read_bytes())
    for name, script in ODD.items():
        yield f"opens: {name}", partial(whole, script=script)
    yield "opens: a title of markup", title
    yield "opens: lines 5 to 9", part
    yield "opens: a node that was there", on_node
    for name, bytes_ in (("no node", b"\7" * 32416), ("a short file", b"\0" * 400), ("no file at all", b"")):
        yield f"opens: on {name}", partial(on_no_node, node=bytes_)
    yield "opens: no script at all", empty


def quiet(world: World, drawn: bool = True) -> None:
    """Nothing was thrown, said or fetched but the page itself, nothing ran that a script or a title brought, and all
    was drawn."""
    browser = world.browser
    same(browser.exceptions(), [], "exceptions")
    same(browser.console(), [], "the console")
    same(len(browser.requests()), 1, f"fetched: {browser.requests()}")
    holds(browser.js("document.body.dataset.ran === undefined"), "a script's own markup ran")
    if drawn:
        same(browser.js("document.body.dataset.undrawn"), None, "what can't be drawn")


def agrees(world: World, lines: int) -> None:
    """The page says that all lines agree."""
    said = world.text("#checked")
    want = {0: "is ready", 1: "the line agrees"}.get(lines, f"all {lines:,} lines agree")
    holds(want in said, f"of {lines} lines the page says: {said}")


def shown(line: bytes) -> str:
    """A line as the page shows it."""
    signs = "".join(chr(b) if 32 <= b < 127 and b != 92 else f"\\x{b:02x}" for b in line[:LONG])
    return signs if len(line) <= LONG else f"{signs}… ({len(line)} bytes)"


def rows(world: World) -> list[list[str]]:
    """The cells of the listing's rows that are in the document."""
    cells = "Array.from(row.cells, cell => cell.textContent)"
    found: list[list[str]] = world.browser.js(f"Array.from(document.querySelectorAll('#rows tr'), row => {cells})")
    return found


def listed(script: bytes, first: int = 1, last: int | None = None, reasons: bool = True) -> list[list[str]]:
    """The rows that a script's listing has, by the project's programs."""
    found = []
    why = judge.reasons(script) if reasons else {}
    for number, (line, row) in enumerate(zip(lines_of(script), judge.listing(script).splitlines()[1:]), 1):
        cells = row.split(",")
        told_why = "{} at {}".format(*why[number]) if number in why else ""
        found.append([str(number), shown(line), *cells[1:6], ",".join(cells[6:]), told_why])
    return found[first - 1 : last]


def at_its_end(world: World, script: bytes) -> None:
    """Opened by a link to its last line."""
    want = listed(script)
    world.open(script, hash=f"line={len(want)}")
    quiet(world)
    agrees(world, len(want))
    same(world.at(), len(want), "the line that is led to")
    same(rows(world), want[-ROWS:], "the rows")


def whole(world: World, script: bytes) -> None:
    """Its beginning, and its end by a key."""
    world.open(script)
    quiet(world)
    want = listed(script)
    agrees(world, len(want))
    same(rows(world), want[:ROWS], "the rows at the beginning")
    world.browser.key("End")
    same(world.at(), len(want), "the line after End")
    same(rows(world), want[-ROWS:], "the rows at the end")
    quiet(world)


def title(world: World) -> None:
    text = MARKUP.decode().replace("\n", " ") + "{{run}} ]]> & \\ ü"
    world.open(WHOLE, "--title", text)
    quiet(world)
    agrees(world, 13)
    same(world.text("#title"), text.replace("\\", "\\x5c"), "the title")


def part(world: World) -> None:
    world.open(WHOLE, "--from", "5", "--to", "9")
    quiet(world)
    agrees(world, 5)
    same(world.at(), 4, "the line at the beginning")
    same(rows(world), listed(WHOLE, 5, 9), "the rows")
    holds("5 to 9 of 13" in world.text("#counts"), "that it is a part is not told")


def _node(world: World, content: bytes) -> Path:
    path = world.folder / "given.node"
    path.write_bytes(content)
    return path


def on_node(world: World) -> None:
    """The second half of the whole case, on the node that the desk has after the first."""
    lines = WHOLE.splitlines(keepends=True)
    path = world.folder / "desk.node"
    path.unlink(missing_ok=True)
    told("desk", path, script=b"".join(lines[:6]))
    world.open(b"".join(lines[6:]), "--on", str(path))
    quiet(world)
    agrees(world, 7)
    want = [[str(int(row[0]) - 6), *row[1:8], ""] for row in listed(WHOLE, 7)]
    same(rows(world), want, "the rows")
    holds("power-on" in world.text("#counts"), "why no reason is told is not told")


def on_no_node(world: World, node: bytes) -> None:
    path = _node(world, node)
    made = world.file(told("replay", "--on", path, script=WHOLE).decode())
    world.show(made)
    quiet(world)
    agrees(world, 13)
    same([row[2:7] for row in rows(world)], [["1", "0", "0", "0", "0"]] * 13, "the reports")
    for key in ("ArrowRight", "End"):
        world.browser.key(key)
        holds("no node" in world.text("#node"), f"in place of the node stands: {world.text('#node')[:200]}")
    quiet(world)


def empty(world: World) -> None:
    world.show(world.file(told("replay", "--empty").decode()))
    quiet(world)
    agrees(world, 0)
    same(rows(world), [], "the rows")
