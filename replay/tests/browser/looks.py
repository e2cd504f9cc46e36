"""What is seen: every text has its contrast with what lies below it, every hatch and every dot is there as pixels,
and no text is cut off or lies over another; on screen, narrow, printed, through a group's eyes, and in pictures saved.
By keyboard and by ear every control is reached and named. Without JavaScript there are title, key and listing."""

from __future__ import annotations

import json
import math
import re
from collections.abc import Iterator
from contextlib import contextmanager
from functools import partial
from pathlib import Path
from typing import Any

from named import Named, holds, same
from opening import listed, quiet, rows
from world import SOON, World, example, lines_of

LOOKS = Path(__file__).with_name("looks.js").read_text()

WIDE, NARROW = (1440, 900), (360, 740)
WIDTHS = (360, 420, 500, 640, 768, 860, 1000, 1001, 1100, 1280, 1440)
PAPER = (688, 1016)
"""What the margins leave of a sheet of A4, in pixels."""
SHEET = (595, 842)
"""A4, in points."""
TALLEST = 6000
"""Pixels of a page that are looked at."""

LINES = {
    "cannot-tell": 11,
    "dump-asleep": 9,
    "dump-awake": 7,
    "forced": 4,
    "frames": 782,
    "hog": 5,
    "round": 15,
    "sleeper": 7,
    "swap": 259,
    "two-acts": 14,
    "whole-case": 6,
    "why": 12,
}
"""Of each example the line at which it is looked at."""
KEPT = ("whole-case", "swap", "hog", "forced", "why", "round")
"""Those of which a picture is kept."""
PAGED = ("frames", "swap")
"""Those that use swap pages."""

WHOLE = example("whole-case")


def checks() -> Iterator[Named]:
    for name, line in LINES.items():
        yield f"looks: {name}, line {line}", partial(screen, name=name, line=line)
        if name != "frames":  # It has nothing that swap lacks, and takes many sheets.
            yield f"looks: {name}, printed", partial(printed, name=name)
    for name in ("cannot-tell", "round", "swap"):
        yield f"looks: {name}, seen by a group", partial(seen_by, name=name)
    for key in ("s", "d"):
        yield f"looks: a picture saved by {key}", partial(saved, key=key)
    for check in (any_width, own_script, empty, no_node, by_keyboard, by_ear, without_javascript):
        yield f"looks: {check.__name__.replace('_', ' ')}", check


# ---- what is seen


@contextmanager
def window(world: World, width: int, height: int = WIDE[1], media: str = "") -> Iterator[None]:
    """A window of this size, with the page laid out for it."""
    world.browser.size(width, height)
    world.browser.media(media)
    try:
        world.browser.js("new Promise(requestAnimationFrame)")
        yield
    finally:
        world.browser.media("")
        world.browser.size(*WIDE)


def look(world: World, width: int = WIDE[0]) -> dict[str, Any]:
    """What is measured of the whole page, in a window as high as it is: nothing of it is hard to see."""
    browser = world.browser
    root = "document.documentElement"
    tall = browser.js(f"Math.max({root}.scrollHeight, {root}.getBoundingClientRect().height)")
    browser.size(width, min(TALLEST, math.ceil(tall)))
    browser.js(LOOKS)
    shots = []
    for texts in ("bare", "marked"):
        browser.js(f"looks.{texts}()")
        shots.append(json.dumps(browser.do("Page.captureScreenshot", format="png", optimizeForSpeed=True)["data"]))
    browser.js("looks.plain()")
    found: dict[str, Any] = browser.js(f"looks.look({', '.join(shots)})")
    browser.size(width, WIDE[1])
    holds(not found["faults"], "\n".join(found["faults"]))
    holds(found["texts"], "no text was looked at")
    return found


def patterned(found: dict[str, Any], name: str) -> None:
    """The patterns that an example has were met."""
    holds(found["hatched"] and (found["dotted"] or name not in PAGED), f"too little is seen: {found}")


def same_width(world: World, width: int) -> None:
    """The page has nothing to its right that a reader would have to go to."""
    found = world.browser.js("document.documentElement.scrollWidth")
    same(found, width, f"the width of the page in a window of {width}")


def screen(world: World, name: str, line: int) -> None:
    world.open(example(name), hash=f"line={line}")
    patterned(on_both(world, f"{name}-{line}" if name in KEPT else ""), name)


def on_both(world: World, kept: str = "") -> dict[str, Any]:
    """The page that is open, on a wide screen and on a narrow one; kept: the name of pictures of it."""
    keep(world, kept)
    found = look(world)
    with window(world, *NARROW):
        keep(world, kept and f"{kept}-narrow")
        same_width(world, NARROW[0])
        look(world, NARROW[0])
    return found


def keep(world: World, name: str) -> None:
    if name:
        world.picture(name)


def seen_by(world: World, name: str) -> None:
    """What a group sees has no pattern: where a message stands it can't tell."""
    world.open(example(name), hash=f"line={LINES[name]}&seen=2")
    holds(world.text("#counts").startswith("What group 2 sees"), "it is not the group's view")
    shapes = ", ".join(f"#{part} .p-{place}" for part in ("stepping", "picture") for place in ("frame", "swap"))
    same(world.browser.js(f"document.querySelectorAll('{shapes}').length"), 0, "patterns that a group sees")
    on_both(world)


def any_width(world: World) -> None:
    world.open(example("frames"), hash="line=700")
    for width in WIDTHS:
        with window(world, width):
            same_width(world, width)


# ---- printed

COLUMNS = """Array.from(document.querySelectorAll('.system [data-at$=" operation"]'),
    sign => parseInt(sign.dataset.at.slice('line '.length)))"""
ROWS = "Array.from(document.querySelectorAll('#printedListing tbody tr'), row => Number(row.cells[0].textContent))"
HIGHER = f"""Array.from(document.querySelectorAll('.system, #node svg, tr, #key dl'))
    .filter(part => part.getBoundingClientRect().height > {PAPER[1]}).map(part => part.outerHTML.slice(0, 60))"""


def printed(world: World, name: str) -> None:
    """Score, node and listing are there whole, and nothing is wider or higher than the paper."""
    script = example(name)
    lines = list(range(1, len(lines_of(script)) + 1))
    world.open(script, hash=f"line={LINES[name]}")
    with window(world, *PAPER, "print"):
        world.browser.wait("document.getElementById('printedListing').childElementCount > 0", SOON)
        same_width(world, PAPER[0])
        patterned(look(world, PAPER[0]), name)
        same(world.browser.js(COLUMNS), lines, "the columns")
        same(world.browser.js(ROWS), lines, "the rows")
        same(world.browser.js(HIGHER), [], "higher than the paper")
        tall = world.browser.js("document.documentElement.scrollHeight")
    sheets(world.browser.pdf(), tall)


def sheets(pdf: bytes, tall: float) -> None:
    """Of A4, as many as the page is high, and a few more where something is not parted; with patterns on them."""
    sizes = re.findall(rb"/MediaBox \[0 0 ([\d.]+) ([\d.]+)\]", pdf)
    same({(round(float(width)), round(float(height))) for width, height in sizes}, {SHEET}, "the sheets")
    count = len(re.findall(rb"/Type\s*/Page\b", pdf))
    least = math.ceil(tall / PAPER[1])
    holds(least <= count <= least + 2 + least // 5, f"{count} sheets for what takes {tall / PAPER[1]:.1f}")
    holds(b"/PatternType 1" in pdf, "no pattern is on the paper")


# ---- pictures saved, and pages that do not show a file's own run


def saved(world: World, key: str) -> None:
    """Opened by itself, it looks as in the page."""
    world.open(example("swap"), hash=f"line={LINES['swap']}")
    world.browser.key(key)
    world.browser.open(world.browser.download())
    patterned(look(world), "swap")


def own_script(world: World) -> None:
    world.open(WHOLE)
    world.browser.js("document.getElementById('script').value = 'S,1\\nA,1,7\\nA,2,9\\nbad\\nS,2\\nD'")
    world.browser.click_on("#again")
    holds("your own script" in world.text("#notice"), "the notice is not there")
    on_both(world)


def empty(world: World) -> None:
    world.open(b"", "--empty")
    on_both(world)


def no_node(world: World) -> None:
    file = world.folder / "none.node"
    file.write_bytes(b"\7" * 32416)
    world.open(WHOLE, "--on", str(file), hash="line=5")
    on_both(world)


# ---- by keyboard and by ear

CONTROLS = "button, select, input, textarea, summary, a[href], [tabindex]"
NAMED = "one => one.id || `${one.tagName} ${one.textContent}`"
RING = "getComputedStyle(document.activeElement.closest('.button') ?? document.activeElement).outlineStyle"


def by_keyboard(world: World) -> None:
    """Tab leads to every control in the order of the page; each has a name, and a ring while it has the keyboard."""
    world.open(WHOLE, hash="line=6")
    browser = world.browser
    shown = f"Array.from(document.querySelectorAll('{CONTROLS}')).filter(one => one.checkVisibility() && !one.disabled)"
    want = browser.js(f"{shown}.map({NAMED})")
    got = []
    for _ in want:
        browser.key("Tab")
        got.append(browser.js(f"({NAMED})(document.activeElement)"))
        same(browser.js(RING), "solid", f"the ring round {got[-1]}")
    same(got, want, "reached by Tab")
    same([node for node in heard(world) if is_focusable(node) and not node["name"]["value"]], [], "without a name")


def heard(world: World) -> list[dict[str, Any]]:
    """What a reader who listens is told of."""
    nodes: list[dict[str, Any]] = world.browser.do("Accessibility.getFullAXTree")["nodes"]
    return [node for node in nodes if not node["ignored"]]


def is_focusable(node: dict[str, Any]) -> bool:
    return any(one["name"] == "focusable" and one["value"]["value"] for one in node["properties"])


INSIDE = """(() => {
    const [row, list] = ['[aria-current]', '#list'].map(one => document.querySelector(one).getBoundingClientRect());
    return row.top >= list.top && row.bottom <= list.bottom;
})()"""
CURRENT = """Array.from(document.querySelectorAll('[aria-current]'),
    row => [row.dataset.line, row.getAttribute('aria-current')])"""


def by_ear(world: World) -> None:
    """The words are told as they change, and the current row; pictures have names; the node is there as text."""
    world.open(WHOLE, hash="line=5")
    browser = world.browser
    before = world.text("#said[aria-live=polite]")
    browser.key("ArrowRight")
    holds(world.text("#said") != before, "the words did not change")
    same(browser.js(CURRENT), [["6", "step"]], "the current row")
    holds(browser.js(INSIDE), "the current row can't be seen in the listing")
    pictures = [node["name"]["value"] for node in heard(world) if node["role"]["value"] == "image"]
    same(pictures, ["Lines 1 to 13 of a script as a score", "The node after line 6, T,256"], "the pictures")
    same(browser.js("document.getElementById('slider').ariaValueText"), "line 6: T,256", "the slider")
    browser.js("document.querySelector('#stateBox summary').focus()")
    browser.key("Enter")
    browser.wait("document.getElementById('state').textContent.startsWith('running 1\\ntimer 0\\n')", SOON)
    look(world)


# ---- without JavaScript


def without_javascript(world: World) -> None:
    page = world.page(WHOLE)
    for width in (WIDE[0], NARROW[0]):
        world.browser.size(width, NARROW[1])
        world.browser.scripts(False)
        world.browser.open(page, "line=5")
        world.browser.scripts(True)
        bare_page(world)
        same_width(world, width)
        look(world, width)
    world.browser.size(*WIDE)


SHOWN = "Array.from(document.querySelectorAll({!r})).filter(one => one.checkVisibility()).map(one => one.textContent)"
TARGET = """(() => {
    const row = document.querySelector(':target');
    const { top, bottom } = row.getBoundingClientRect();
    const ground = of => getComputedStyle(of.cells[0]).backgroundColor;
    const isMarked = ground(row) !== ground(row.nextElementSibling);
    return [row.cells[0].textContent, top >= 0 && bottom <= innerHeight, isMarked];
})()"""


def bare_page(world: World) -> None:
    """Title, key and listing, and nothing to press; a link to a line leads to its row, which is marked."""
    shown = world.browser.js(SHOWN.format("h1, h2"))
    same(shown, ["a script", "The listing", "How to read it"], "what is there")
    same(world.browser.js(SHOWN.format("button, select, input, textarea")), [], "to press")
    same(rows(world), listed(WHOLE), "the listing")
    same(world.browser.js(TARGET), ["5", True, True], "the row that is led to, whether it is seen, and marked")
    quiet(world)
