"""A reader's own script, played in the page by the proved code: written in the box, opened or dropped; and back to the file's own run."""

from __future__ import annotations

from collections.abc import Iterator
from functools import partial
from pathlib import Path

from named import Named, holds, same
from opening import ODD, WHOLE, listed, quiet, rows
from saving import desk, head, saved
from world import SOON, World, lines_of, told

CHANGED = WHOLE.replace(b"T,256", b"T,255")
"""The whole case with another line 6."""

NOTICE = "This is your own script, not the run in this file. The proved code in this page played it, from "
MOST = 20_000
"""Lines that a page shows."""


def checks() -> Iterator[Named]:
    yield "editing: the whole case with another line 6, and back", edited
    yield "editing: a script without lines", no_lines
    yield "editing: signs that are no ASCII, and backslashes", typed
    for name in ("bytes 0 to 255", "markup", "no last newline", "a line of a megabyte"):
        yield f"editing: dropped, {name}", partial(dropped, script=ODD[name])
    yield "editing: a file opened, and opened again", opened
    yield "editing: as many lines as a page shows", most
    yield "editing: more lines than a page shows, in the box", too_many_in_box
    yield "editing: more lines than a page shows, dropped", too_many_dropped
    yield "editing: in the page of a part", on_part
    yield "editing: on a node that was there", on_node
    yield "editing: on a file that is no node", on_no_node
    yield "editing: in the page without a script", on_empty


def write(world: World, text: str, begin: int = 0, end: int | None = None) -> None:
    """Writes into the box, in place of what it has from one sign to another."""
    world.browser.click_on("#script")
    world.browser.js(f"(box => box.setSelectionRange({begin}, {'box.value.length' if end is None else end}))(document.getElementById('script'))")
    world.browser.type(text) if text else world.browser.key("Delete")


def play(world: World, text: str) -> None:
    """Plays this, written in the box."""
    write(world, text)
    world.browser.click_on("#again")


def box(world: World) -> str:
    return str(world.browser.js("document.getElementById('script').value"))


def played(world: World, script: bytes, title: str, begin: str = "power-on") -> None:
    """The page shows the run of a reader's script, and says so: notice, title and counts change together."""
    count = len(lines_of(script))
    same(world.text("#notice"), f"{NOTICE}{begin}.", "the notice")
    holds(world.browser.js("document.getElementById('notice').checkVisibility()"), "the notice is not seen")
    same(world.text("#title"), title, "the title")
    same(world.browser.js("document.title"), f"{title} · a node of the FUGU machine", "the document's title")
    same(world.text("#played"), f"Played: {count:,} line{'' if count == 1 else 's'}.", "what was played")
    if count:
        holds(world.text("#counts").startswith(f"{count:,} line"), f"the counts: {world.text('#counts')}")
        same(world.browser.js("document.getElementById('slider').max"), str(count), "the slider's end")


def own(world: World, lines: int) -> None:
    """The page shows the file's own run."""
    holds(not world.browser.js("document.getElementById('notice').checkVisibility()"), "the notice is still seen")
    same(world.text("#title"), "a script", "the title")
    same(world.browser.js("document.title"), "a script · a node of the FUGU machine", "the document's title")
    holds(world.text("#counts").startswith(f"{lines} lines: "), f"the counts: {world.text('#counts')}")


def edited(world: World) -> None:
    world.open(WHOLE, hash="line=6")
    before = box(world)
    same(before.encode(), WHOLE, "what is in the box")
    begin = before.index("T,256")
    write(world, "T,255", begin, begin + 5)
    own(world, 13)
    same((world.at(), rows(world)), (6, listed(WHOLE)), "the run while it is written")
    world.browser.click_on("#again")
    played(world, CHANGED, "Your script")
    same((world.at(), rows(world)), (6, listed(CHANGED)), "the rows")
    holds("from 0 to 255 of 256" in world.text("#said"), f"line 6 in words: {world.text('#said')}")
    world.browser.js("document.activeElement.blur()")
    world.browser.key("End")
    same(saved(world, "saveDump", "m", "line-13.node"), desk(world, CHANGED), "the dump")
    world.browser.click_on("#own")
    own(world, 13)
    same((world.at(), rows(world), box(world)), (0, listed(WHOLE), before), "the file's own run")
    quiet(world)


def no_lines(world: World) -> None:
    world.open(WHOLE, hash="line=13")
    play(world, "")
    played(world, b"", "Your script")
    same((world.at(), rows(world)), (0, []), "the run")
    world.browser.key("ArrowRight")
    same(world.at(), 0, "the line")
    play(world, "S,1\n")
    same(rows(world), listed(b"S,1\n"), "the rows of what is played then")
    quiet(world)


def typed(world: World) -> None:
    """What is no \\xHH is as it is written, in UTF-8."""
    world.open(WHOLE)
    play(world, "S,1\\x0d\nä\n\\\n\\x4\nA,1\\x2c7\n\\xZZ")
    script = "S,1\r\nä\n\\\n\\x4\nA,1,7\n\\xZZ".encode()
    played(world, script, "Your script")
    same(rows(world), listed(script), "the rows")
    quiet(world)


def file(world: World, script: bytes) -> Path:
    path = world.folder / "a reader's.script"
    path.write_bytes(script)
    return path


def drop(world: World, script: bytes) -> Path:
    path = file(world, script)
    world.browser.js("scrollTo(0, 0)")
    world.browser.drop(700, 400, path)
    return path


def dropped(world: World, script: bytes) -> None:
    """Played as it is; then the box has every byte of it, and plays the same."""
    world.open(WHOLE)
    path = drop(world, script)
    world.browser.wait("document.body.dataset.own === 'false'", SOON)
    for title in (path.name, "Your script"):
        played(world, script, title)
        same(rows(world), listed(script)[:120], "the rows")
        world.browser.click_on("#again")
    quiet(world)


def choose(world: World, path: Path) -> None:
    """A file chosen where the page asks for one."""
    input_ = world.browser.do("Runtime.evaluate", expression="document.getElementById('file')")["result"]["objectId"]
    world.browser.do("DOM.setFileInputFiles", files=[str(path)], objectId=input_)


def opened(world: World) -> None:
    world.open(WHOLE)
    for script in (CHANGED, ODD["bytes 0 to 255"]):
        path = file(world, script)
        choose(world, path)
        world.browser.wait("document.body.dataset.own === 'false'", SOON)
        played(world, script, path.name)
        same(rows(world), listed(script)[:120], "the rows")
        world.browser.click_on("#own")
        own(world, 13)
    quiet(world)


def most(world: World) -> None:
    world.open(WHOLE)
    drop(world, b"C\n" * MOST)
    world.browser.wait("document.body.dataset.own === 'false'", SOON)
    played(world, b"C\n" * MOST, "a reader's.script")
    world.browser.key("End")
    same((world.at(), rows(world)[-1][:3]), (MOST, [str(MOST), "C", "0"]), "the end")
    quiet(world)


def _refused(world: World) -> None:
    world.browser.wait("document.getElementById('played').textContent !== ''", SOON)
    same(world.text("#played"), "20,001 lines are more than the 20,000 that a page shows: nothing was played.", "what is said")
    own(world, 13)
    same((world.at(), rows(world)), (6, listed(WHOLE)), "the run")
    quiet(world)


def too_many_in_box(world: World) -> None:
    world.open(WHOLE, hash="line=6")
    # Not typed: into a box so full a browser writes for minutes.
    world.browser.js(f"document.getElementById('script').value = 'C\\n'.repeat({MOST}) + 'C'")
    world.browser.click_on("#again")
    _refused(world)


def too_many_dropped(world: World) -> None:
    world.open(WHOLE, hash="line=6")
    drop(world, b"C\n" * (MOST + 1))
    _refused(world)


def _behind(script: bytes, line: int) -> list[list[str]]:
    """The rows that a script has behind a line of the whole case, counted from 1, and without reasons."""
    found = listed(head(WHOLE, line) + script)[line:]
    return [[str(int(row[0]) - line), *row[1:8], ""] for row in found]


MEMORY = "the memory that the file’s own lines begin with"
OTHER = b"E,0\nD\nM\nN\nS,2\nA,2,4\nC\n"
"""What a reader plays behind line 6 of the whole case."""


def on_part(world: World) -> None:
    world.open(WHOLE, "--from", "7", "--to", "9")
    play(world, OTHER.decode())
    played(world, OTHER, "Your script", MEMORY)
    same(rows(world), _behind(OTHER, 6), "the rows")
    world.browser.click_on("#own")
    same((world.at(), rows(world)), (6, listed(WHOLE, 7, 9)), "the file's own run")
    quiet(world)


def on_node(world: World) -> None:
    path = world.folder / "half.node"
    path.write_bytes(desk(world, head(WHOLE, 6)))
    world.open(b"C\n", "--on", str(path))
    play(world, OTHER.decode())
    played(world, OTHER, "Your script", MEMORY)
    same(rows(world), _behind(OTHER, 6), "the rows")
    quiet(world)


def on_no_node(world: World) -> None:
    path = world.folder / "no.node"
    path.write_bytes(b"\7" * 32416)
    world.show(world.file(told("replay", "--on", path, script=WHOLE).decode()))
    play(world, OTHER.decode())
    played(world, OTHER, "Your script", MEMORY)
    same([row[2:7] for row in rows(world)], [["1", "0", "0", "0", "0"]] * 7, "the reports")
    quiet(world)


def on_empty(world: World) -> None:
    world.show(world.file(told("replay", "--empty").decode()))
    play(world, CHANGED.decode())
    played(world, CHANGED, "Your script")
    same(rows(world), listed(CHANGED), "the rows")
    world.browser.js("document.activeElement.blur()")
    world.browser.key("End")
    same(saved(world, "saveDump", "m", "line-13.node"), desk(world, CHANGED), "the dump")
    world.browser.click_on("#own")
    same((rows(world), box(world)), ([], ""), "the page as it was")
    quiet(world)
