"""What the page saves, by button and by key: pictures that stand alone and are drawn as on the page, and the dump, which is the desk's file."""

from __future__ import annotations

import re
import xml.etree.ElementTree as ElementTree
from collections.abc import Iterator
from functools import partial
from pathlib import Path

from checks import ROOT
from named import Named, holds, same
from opening import WHOLE
from world import World, example, lines_of, told

SVG = "{http://www.w3.org/2000/svg}"
PATTERNS = {"p-hatch", "p-dots"}

Thing = tuple[str, tuple[tuple[str, str], ...], str]
"""An element of a picture: its tag, its attributes, its text."""

PICTURES = (
    ("saveScore", "s", "score-1-13.svg", "whole-case-score.svg"),
    ("saveNode", "d", "node-line-6.svg", "whole-case-node.svg"),
)
"""Buttons, their keys, the names that they save under, and the pictures of the whole case in examples/."""


def checks() -> Iterator[Named]:
    for name, script, line in (("whole-case", WHOLE, 6), ("swap", example("swap"), 266), ("why", example("why"), 0)):
        yield f"saving: the score of {name} at line {line}", partial(score, script=script, line=line)
        yield f"saving: the node of {name} at line {line}", partial(node, script=script, line=line)
        yield f"saving: the dump of {name} at line {line}", partial(dump, script=script, line=line)
    for button, key, name, kept in PICTURES:
        yield f"saving: examples/{kept}", partial(picture, button=button, key=key, name=name, kept=kept)
    yield "saving: as seen by a group", seen
    yield "saving: the dump in a page of a part", dump_of_part
    yield "saving: the dump on a node that was there", dump_on_node


def saved(world: World, button: str, key: str, name: str) -> bytes:
    """What a button saves, under that name; its key saves the same."""
    world.browser.click_on(f"#{button}")
    content = _taken(world.browser.download(), name)
    world.browser.key(key)
    same(_taken(world.browser.download(), name), content, f"what {key} saves")
    return content


def picture(world: World, button: str, key: str, name: str, kept: str) -> None:
    """A picture of examples/ is what the page of the whole case saves at line 6."""
    world.open(WHOLE, "--title", "The whole case", hash="line=6")
    same(saved(world, button, key, name).decode(), (ROOT / "examples" / kept).read_text(), kept)


def _taken(path: Path, name: str) -> bytes:
    same(path.name, name, "the name of the file")
    content = path.read_bytes()
    path.unlink()
    return content


def alone(content: bytes) -> ElementTree.Element:
    """A picture that is XML and has all that it refers to: its style, its patterns."""
    root = ElementTree.fromstring(content)
    same(root.tag, f"{SVG}svg", "the root")
    ids = {element.get("id") for element in root.iter()} - {None}
    holds(PATTERNS <= ids, f"it has no patterns but {sorted(ids)}")
    style = root.find(f"{SVG}style")
    holds(style is not None and "p-hatch" in str(style.text), "it has no style of its own")
    same(set(re.findall(r"url\(#([\w-]+)\)", content.decode())) - ids, set(), "referred to, and not there")
    holds(root.find(f"{SVG}title") is not None and root.find(f"{SVG}desc") is not None, "it has no title, or is not described")
    holds(not re.search(rb"(href|src|@import|@font-face)", content), "it refers to something else")
    return root


def things(root: ElementTree.Element) -> list[Thing]:
    """What is drawn: not the cursor, nor what is there to be clicked on, nor what a picture alone has besides."""
    skipped = {f"{SVG}{tag}" for tag in ("title", "desc", "style", "defs")}
    found: list[Thing] = []

    def walk(element: ElementTree.Element) -> None:
        if element.tag in skipped or element.get("data-at") == "cursor" or element.get("class") == "p-hit":
            return
        found.append((element.tag, tuple(sorted(element.items())), (element.text or "").strip()))
        for child in element:
            walk(child)

    for child in root:
        walk(child)
    return found


def on_page(world: World, part: str) -> ElementTree.Element:
    return ElementTree.fromstring(world.browser.js(f"new XMLSerializer().serializeToString(document.querySelector('#{part} svg'))"))


def score(world: World, script: bytes, line: int) -> None:
    """Where the page shows a part of a run it is laid out for the whole, a picture for what it shows: then its texts are compared."""
    world.open(script, hash=f"line={line}")
    shown = world.browser.js("Array.from(document.querySelectorAll('#score .p-hit'), hit => hit.dataset.line)")
    first, last = shown[0], shown[-1]
    root = alone(saved(world, "saveScore", "s", f"score-{first}-{last}.svg"))
    *drawn, below = things(root)
    holds(f"lines {first} to {last}" in below[2], f"below the picture it is said: {below[2]}")
    wanted = things(on_page(world, "score"))
    if len(shown) < len(lines_of(script)):
        drawn, wanted = [named(drawn), named(wanted)]
    same(drawn, wanted, "the drawing")


def named(drawn: list[Thing]) -> list[Thing]:
    """Of what is named by data-at the name, what lasts, and the text: all but where it is on the sheet."""
    kept = ("data-at", "data-from", "data-to", "data-counts", "data-line", "data-group")
    return [(tag, tuple((key, value) for key, value in items if key in kept), text) for tag, items, text in drawn if dict(items).get("data-at")]


def node(world: World, script: bytes, line: int) -> None:
    world.open(script, hash=f"line={line}")
    root = alone(saved(world, "saveNode", "d", f"node-line-{line}.svg"))
    same(things(root), things(on_page(world, "node")), "the drawing")


def seen(world: World) -> None:
    world.open(WHOLE, hash="line=9&seen=2")
    own = alone(saved(world, "saveNode", "d", "group-2-line-9.svg"))
    same(things(own), things(on_page(world, "node")), "what a group sees")
    lane = alone(saved(world, "saveScore", "s", "score-1-13.svg"))
    same(things(lane)[:-1], things(on_page(world, "score")), "its score")
    texts = {text for _, _, text in things(own) + things(lane)}
    holds("A,1,7" not in texts and "E,0" not in texts and "M" in texts, f"it has the lines of others, or not its own: {sorted(texts)}")


def desk(world: World, script: bytes) -> bytes:
    """The file that the desk keeps."""
    path = world.folder / "kept.node"
    path.unlink(missing_ok=True)
    told("desk", path, script=script)
    return path.read_bytes()


def head(script: bytes, line: int) -> bytes:
    """A script's first lines."""
    return b"".join(text + b"\n" for text in lines_of(script)[:line])


def dump(world: World, script: bytes, line: int) -> None:
    world.open(script, hash=f"line={line}")
    same(saved(world, "saveDump", "m", f"line-{line}.node"), desk(world, head(script, line)), "the dump")


def dump_of_part(world: World) -> None:
    for line in (4, 7):
        world.open(WHOLE, "--from", "5", "--to", "9", hash=f"line={line}")
        same(saved(world, "saveDump", "m", f"line-{line}.node"), desk(world, head(WHOLE, line)), f"the dump at line {line}")


def dump_on_node(world: World) -> None:
    path = world.folder / "half.node"
    path.write_bytes(desk(world, head(WHOLE, 6)))
    world.open(WHOLE[len(head(WHOLE, 6)) :], "--on", str(path), hash="line=3")
    same(saved(world, "saveDump", "m", "line-3.node"), desk(world, head(WHOLE, 9)), "the dump")
