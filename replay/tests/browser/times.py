"""How long it takes to make a page, to open it, and to step in it: told, and held to three times what it may take on a
machine of its own."""

from __future__ import annotations

import time
from collections.abc import Iterator
from functools import partial

from named import Named, holds
from world import World, told

TIMES = 3
"""Of what is allowed, on a machine that others use, too."""

SIZES = ((1_000, 1.0, 0.050), (10_000, 4.0, 0.100))
"""Lines, seconds to open, seconds to step."""
MAKING = 2.0
"""Seconds for a page of the most lines."""

CLOCK = """globalThis.took = [];
const clock = event => setTimeout(() => took.push(performance.now() - event.timeStamp));
addEventListener('keydown', event => requestAnimationFrame(() => clock(event)), true);"""
"""From the key to behind the picture that shows it."""


def checks() -> Iterator[Named]:
    for flavour in ("mixed", "swap"):
        for lines, opens, steps in SIZES:
            check = partial(page, flavour=flavour, lines=lines, opens=opens, steps=steps)
            yield f"times: {lines:,} lines, {flavour}", check


def page(world: World, flavour: str, lines: int, opens: float, steps: float) -> None:
    script = told("scripts", "27", str(lines), flavour)
    began = time.monotonic()
    path = world.page(script)
    made = time.monotonic() - began
    began = time.monotonic()
    world.browser.open(path)
    world.browser.wait("document.body.dataset.line !== undefined")
    opened = time.monotonic() - began
    world.browser.wait("document.body.dataset.checked !== undefined")
    again = time.monotonic() - began
    stepped = _step(world, lines // 2)
    size = f"{lines:,} lines, {flavour}, {path.stat().st_size // 1000:,} KB"
    first = f"made in {made:.2f} s, opened in {opened:.2f} s, played again by {again:.2f} s"
    print(f"{size}: {first}, a step {stepped * 1000:.0f} ms", flush=True)
    holds(made <= TIMES * MAKING, f"made in {made:.2f} s")
    holds(opened <= TIMES * opens, f"opened in {opened:.2f} s")
    holds(stepped <= TIMES * steps, f"a step takes {stepped * 1000:.0f} ms")


def _step(world: World, line: int) -> float:
    """The middle one of twenty steps from a line on."""
    world.browser.js(f"location.hash = '#line={line}'")
    world.browser.wait(f"document.body.dataset.line === '{line}'")
    world.browser.js(CLOCK)
    for count in range(20):
        world.browser.key("ArrowRight")
        world.browser.wait(f"took.length === {count + 1}")
    return float(sorted(world.browser.js("took"))[10]) / 1000
