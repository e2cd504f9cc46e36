"""Stepping by real keys and clicks: whatever brings the page to a line, all its parts are at that line."""

from __future__ import annotations

import time
from collections.abc import Iterator

import judge
from named import Named, holds, same
from opening import WHOLE, quiet
from world import SOON, World, example

LAST = 13
"""Lines of the whole case."""

LONG = example("frames")

WHERE = """(() => {
    const line = selector => document.querySelector(selector)?.dataset.line ?? 'none';
    return {
        hash: location.hash,
        slider: document.getElementById('slider').value,
        row: line('#rows [aria-current]'),
        cursor: line('#score [data-at=cursor]'),
        node: document.querySelector('#node svg').getAttribute('aria-label'),
        said: document.querySelector('#said .step').textContent,
    };
})()"""
"""What each part of the page says of the line at which it is."""


def checks() -> Iterator[Named]:
    yield "stepping: keys", keys
    yield "stepping: keys that are left alone", keys_left_alone
    yield "stepping: buttons", buttons
    yield "stepping: events", events
    yield "stepping: links", links
    yield "stepping: the slider", slider
    yield "stepping: clicks on columns, rows and a reason", clicks
    yield "stepping: the overview", overview
    yield "stepping: the width of columns", columns
    yield "stepping: play and pause", play
    yield "stepping: it plays to the end", play_to_the_end


def is_at(world: World, line: int) -> None:
    """All parts of the page of the whole case are at a line."""
    same(world.at(), line, "the line")
    seen = world.browser.js(WHERE)
    said = seen.pop("said").split("  ")[0]
    holds(said.startswith(f"line {line} of {LAST}" if line else "before line 1"), f"at line {line} it is said: {said}")
    holds(seen.pop("node").startswith(f"The node after line {line}," if line else "The node at power-on"), f"the node is not that after line {line}")
    row = str(line) if line else "none"
    same(seen, {"hash": f"#line={line}", "slider": str(line), "row": row, "cursor": str(line)}, f"at line {line}")


def keys(world: World) -> None:
    world.open(WHOLE)
    is_at(world, 0)
    way = "ArrowRight 1 ArrowDown 2 ArrowLeft 1 ArrowUp 0 ArrowUp 0 PageDown 10 PageDown 13 ArrowRight 13 PageUp 3 End 13 Home 0 End 13 ArrowUp 12"
    for key, line in zip(way.split()[::2], way.split()[1::2]):
        world.browser.key(key)
        is_at(world, int(line))
    quiet(world)


def keys_left_alone(world: World) -> None:
    """A key that is a browser's own, or is typed or chosen with, does not step."""
    world.open(WHOLE, hash="line=5")
    world.browser.key("Control+ArrowRight")
    world.browser.key("x")
    for place in ("script", "column", "file"):
        world.browser.js(f"document.getElementById('{place}').focus()")
        world.browser.key("n")
        world.browser.key("End")
        is_at(world, 5)
    world.browser.js("document.getElementById('next').focus()")
    world.browser.key(" ")
    is_at(world, 6)
    same(world.text("#play").split()[-1], "play", "a blank on a button that is not play")
    world.browser.key("Enter")
    is_at(world, 7)
    world.browser.key("ArrowLeft")
    is_at(world, 6)


def can(world: World, *buttons: str) -> list[bool]:
    """Whether buttons can be pressed."""
    return [not world.browser.js(f"document.getElementById('{button}').disabled") for button in buttons]


def buttons(world: World) -> None:
    world.open(WHOLE)
    same(can(world, "first", "back", "eventBack"), [False] * 3, "the buttons that go back, at the beginning")
    for button, line in (("next", 1), ("next", 2), ("back", 1), ("last", 13), ("first", 0), ("last", 13), ("back", 12)):
        world.browser.click_on(f"#{button}")
        is_at(world, line)
    world.browser.click_on("#last")
    same(can(world, "last", "next", "eventNext"), [False] * 3, "the buttons that go on, at the end")
    same(can(world, "first", "back", "eventBack"), [True] * 3, "the buttons that go back, at the end")


def events(world: World) -> None:
    """A refusal, a trap, or several messages that moved at once; behind the last event is the end."""
    script = example("two-acts") + WHOLE
    reports = judge.reports(script)
    found = [i for i, report in enumerate(reports, 1) if report.answer or report.trap or report.moved > 1]
    holds(any(reports[i - 1].answer == reports[i - 1].trap == 0 for i in found), "no event that is only a move")
    world.open(script)
    for there, back in (("n", "p"), ("#eventNext", "#eventBack")):
        for step, way in ((there, [*found, len(reports)]), (back, [*found[::-1], 0])):
            went = []
            for _ in range(len(way) if way[-2] != way[-1] else len(way) - 1):
                world.browser.click_on(step) if step[0] == "#" else world.browser.key(step)
                went.append(world.at())
            same(went, list(dict.fromkeys(way)), f"the events by {step}")


def links(world: World) -> None:
    wanted = {"line=12": 12, "line=0": 0, "line=99": 13, "line=x": 0, "": 0, "line=12&seen=7": 12, "line=12&seen=9": 12}
    for hash, line in wanted.items():
        world.open(WHOLE, hash=hash)
        is_at(world, line)
    world.browser.js("location.hash = '#line=4'")
    world.browser.wait("document.body.dataset.line === '4'", SOON)
    is_at(world, 4)
    world.open(WHOLE, hash="line=12&seen=2")
    same((world.at(), world.browser.js("document.getElementById('viewer').value")), (12, "2"), "line and group")
    same(world.browser.js("location.hash"), "#line=12&seen=2", "the address")
    world.browser.key("ArrowRight")
    same(world.browser.js("location.hash"), "#line=13&seen=2", "the address a line later")


def slider(world: World) -> None:
    """Clicked at a quarter of it, and stepped by the page's keys where it has the focus."""
    world.open(WHOLE)
    world.browser.click_on("#slider")
    holds(world.at() in (6, 7), f"in the middle of the slider is line {world.at()}")
    is_at(world, world.at())
    x, y, width = world.browser.js("(box => [box.x, box.y + box.height / 2, box.width])(document.getElementById('slider').getBoundingClientRect())")
    world.browser.click(x + width - 2, y)
    is_at(world, LAST)
    world.browser.key("ArrowLeft")
    is_at(world, LAST - 1)
    world.browser.key("Home")
    is_at(world, 0)
    same(world.browser.js("document.getElementById('slider').getAttribute('aria-valuetext')"), "at power-on", "the slider by ear")


def clicks(world: World) -> None:
    world.open(WHOLE)
    for line in (9, 1, 13):
        world.browser.click_on(f"#score .p-hit[data-line='{line}']")
        is_at(world, line)
    for line in (4, 12):
        world.browser.click_on(f"#rows tr[data-line='{line}'] td")
        is_at(world, line)
    world.browser.click_on("#rows tr[data-line='2'] a")
    world.browser.wait("document.body.dataset.line === '6'", SOON)
    is_at(world, 6)


def overview(world: World) -> None:
    """A click brings its cursor to where it was, and the score to that part."""
    world.open(LONG)
    count = len(judge.reports(LONG))
    found = []
    for x in (200, 700, 1200):
        world.browser.js("scrollTo(0, 0)")
        top = world.browser.js("document.getElementById('overview').getBoundingClientRect().top")
        world.browser.click(x, top + 10)
        cursor = world.browser.js("document.getElementById('cursor').getBoundingClientRect().x")
        lines = world.browser.js("Array.from(document.querySelectorAll('#score .p-hit'), hit => Number(hit.dataset.line))")
        holds(abs(cursor - x) < 3, f"a click at {x} brought the cursor to {cursor}")
        holds(world.at() in lines, f"line {world.at()} is not among those that the score shows")
        holds(f"The score shows lines {lines[0]} to {lines[-1]}." in world.text("#window"), "which part it shows is not said")
        found.append(world.at())
    holds(1 < found[0] < found[1] < found[2] < count, f"the lines found from left to right: {found}")
    world.open(WHOLE)
    holds(world.browser.js("document.getElementById('overview').hidden"), "an overview of what is seen whole")


def columns(world: World) -> None:
    """Each that can be chosen, by keys; the current line is always shown."""
    world.open(LONG, hash="line=400")
    world.browser.js("document.getElementById('column').focus()")
    for width in (4, 12, 24, 44):
        world.browser.key("ArrowDown")
        same(world.browser.js("document.getElementById('column').value"), str(width), "the width chosen")
        widths, lines = world.browser.js(
            "(hits => [hits.map(hit => Number(hit.getAttribute('width'))), hits.map(hit => Number(hit.dataset.line))])"
            "(Array.from(document.querySelectorAll('#score .p-hit')))"
        )
        same(set(widths), {width}, "the width of the columns")
        holds(400 in lines and lines == list(range(lines[0], lines[-1] + 1)), f"at width {width} the lines are {lines[0]} to {lines[-1]}")
        holds(width * len(lines) <= 1440, f"{len(lines)} columns of {width} do not fit")


def _playing(world: World) -> tuple[str, str]:
    return world.text("#play").split()[-1], world.browser.js("document.getElementById('play').getAttribute('aria-pressed')")


def play(world: World) -> None:
    world.open(WHOLE, hash="line=4")
    world.browser.key(" ")
    same(_playing(world), ("pause", "true"), "the button while it plays")
    world.browser.wait("document.body.dataset.line === '6'", SOON)
    world.browser.key(" ")
    same(_playing(world), ("play", "false"), "the button when it pauses")
    time.sleep(1.1)
    is_at(world, 6)


def play_to_the_end(world: World) -> None:
    """By the button: from the line before the last; there it stops, and from there on it begins anew."""
    world.open(WHOLE, hash=f"line={LAST - 1}")
    world.browser.click_on("#play")
    world.browser.wait(f"document.body.dataset.line === '{LAST}'", SOON)
    world.browser.wait("document.getElementById('play').getAttribute('aria-pressed') === 'false'", SOON)
    is_at(world, LAST)
    world.browser.click_on("#play")
    same((world.at(), _playing(world)), (0, ("pause", "true")), "played again from the end")
