"""A page that was damaged says so, and the rest of it works: its code, the browser's lack of WebAssembly, and the run that stands in it."""

from __future__ import annotations

import re
from collections.abc import Callable, Iterator
from functools import partial

from named import Named, holds, same
from opening import WHOLE, listed, quiet, rows
from world import SOON, World, told

Edit = Callable[[str], str]


def checks() -> Iterator[Named]:
    for name, edit in CODES.items():
        yield f"damage: code, {name}", partial(without_code, edit=edit)
    for name, (edit, said) in RUNS_THAT_DIFFER.items():
        yield f"damage: {name}", partial(differs, edit=edit, said=said)
    for name, edit in RUNS.items():
        yield f"damage: a run, {name}", partial(without_run, edit=edit)


def put(old: str, new: str) -> Edit:
    """The first of an expression's finds exchanged; one that finds nothing is an error of the check."""

    def edit(page: str) -> str:
        changed, count = re.subn(old, new, page, count=1, flags=re.S | re.M)
        holds(count == 1, f"the page has no {old}")
        return changed

    return edit


_CODE = r'(<script type="text/plain" id="code">\ncode \d+ [0-9a-f]{8}\n)'
_BASE64 = _CODE + r"([^<]*)"

CODES: dict[str, Edit] = {
    "a row cut off": put(_CODE + r"([^<]*?)[^\n<]+\n</script>", r"\1\2</script>"),
    "a digit cut off": put(_CODE + r"([^<]*?)[\w+/]=*\n</script>", r"\1\2\n</script>"),
    "none left": put(_BASE64, r"\1"),
    "a byte changed": put(_CODE + r"([^<]{2000})[^A\n]", r"\1\2A"),
    "a sign that is no base64": put(_CODE + r"([^<]{2000})\w", r"\1\2!"),
    "another length": put(r"^code \d+ ", "code 7 "),
    "another sum": put(r"^(code \d+) [0-9a-f]{8}$", r"\1 00000000"),
    "no head": put(r"^code \d+ [0-9a-f]{8}\n", ""),
    "no WebAssembly": put("<head>", "<head><script>delete globalThis.WebAssembly;</script>"),
}

RUNS_THAT_DIFFER: dict[str, tuple[Edit, str]] = {
    "a report": (put(r"^5\|E,0\|0,7,", "5|E,0|0,8,"), "line 5 differs"),
    "a word": (put(r"^12\|P,9\|(.*?)=1,9", r"12|P,9|\1=1,8"), "line 12 differs"),
    "a line": (put(r"^7\|D\|", "7|M|"), "line 7 differs"),
    "a reason": (put(r"\|6 at 6$", "|5 at 6"), "line 2 differs"),
    "the memory at the start": (put(r"^start 3=32", "start 3=31"), "the memory at the start is not power-on’s"),
}
"""What stands in the run and is not so, and what the page says of it."""

RUNS: dict[str, Edit] = {
    "cut short": put(r"^6\|T,256.*?</script>", "</script>"),
    "cut within a line": put(r"^6\|(T,256).*?</script>", r"6|\1</script>"),
    "cut in its head": put(r"^lines 1 13 13.*?</script>", "</script>"),
    "none at all": put(r"^fugu-replay 1.*?</script>", "</script>"),
    "of another format": put(r"^fugu-replay 1$", "fugu-replay 2"),
    "a line left out": put(r"^6\|T,256[^\n]*\n", ""),
    "a line twice": put(r"^(6\|T,256[^\n]*\n)", r"\1\1"),
    "a line without its fields": put(r"^6\|T,256[^\n]*$", "6|T,256"),
    "words that are none": put(r"^1\|S,1\|0,0,0,0,0\|0=1\|", "1|S,1|0,0,0,0,0|x|"),
    "a start that is none": put(r"^start 3=32", "start 3="),
    "a last line that is not there": put(r"^lines 1 13 13$", "lines 1 14 14"),
    "of another map": put(r"^map frames=32", "map frames=16"),
}


def made(world: World, edit: Edit) -> str:
    """The path of the page of the whole case with the damage."""
    return str(world.file(edit(told("replay", script=WHOLE).decode())))


def steps(world: World) -> None:
    """It can be stepped, and the listing is whole."""
    same(rows(world), listed(WHOLE), "the rows")
    for key, line in (("ArrowRight", 1), ("n", 4), ("End", 13)):
        world.browser.key(key)
        same(world.at(), line, f"the line after {key}")
    label = world.browser.js("document.querySelector('#node svg').getAttribute('aria-label')")
    holds("The node after line 13" in str(label), "the node is not drawn")


def without_code(world: World, edit: Edit) -> None:
    world.show(made(world, edit))
    said = world.text("#checked")
    holds(said.startswith("The proved code in this page does not run here (") and said.endswith("): all else works."), f"the page says: {said}")
    holds(not world.browser.js("document.getElementById('edit').checkVisibility()"), "a script could still be written, and would not be played")
    steps(world)
    quiet(world)


def differs(world: World, edit: Edit, said: str) -> None:
    world.show(made(world, edit))
    want = f"Played again in this page by the proved code, the run differs from what stands in this file: {said}."
    same(world.text("#checked"), want, "what the page says")
    quiet(world)


def without_run(world: World, edit: Edit) -> None:
    """As without JavaScript: title, key and listing."""
    world.browser.open(made(world, edit))
    world.browser.wait("document.documentElement.classList.contains('damaged')", SOON)
    said = world.text("#notice")
    holds(re.fullmatch(r"This page is damaged: the run [\w -]+\.", said), f"the page says: {said}")
    for part in ("notice", "title", "list", "key"):
        holds(world.browser.js(f"document.getElementById('{part}').checkVisibility()"), f"{part} is not seen")
    for part in ("stepping", "now", "picture", "edit"):
        holds(not world.browser.js(f"document.getElementById('{part}').checkVisibility()"), f"{part} is seen")
    same(rows(world), listed(WHOLE), "the rows")
    world.browser.key("ArrowRight")
    quiet(world)
