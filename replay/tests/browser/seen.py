"""Seen by a group: its own answers, upcalls and line; no trap, nothing moved, no place, and no line of another's anywhere on the page."""

from __future__ import annotations

import re
from collections.abc import Iterator
from functools import partial

import judge
from named import Named, holds, same
from opening import WHOLE, quiet
from world import World, example, lines_of

TIMELY = WHOLE.replace(b"T,256", b"T,255")
"""The whole case without its timeout: to both groups it is the same."""

OWN = "MEDBNPL"
"""The operations of a running group."""

OF_THE_KERNEL = re.compile(r"\b(traps?|moved?|kernel|queue\w*|frames?|swap|buffer\w*|timer|ticks?|timeout|pages|revoked|reason|pledge)\b", re.I)

SEEN = """(() => {
    const shown = element => !element.matches('#key, option, kbd, footer') && (element.matches('title') || element.checkVisibility());
    const typed = element => (element.matches('textarea') ? element.value : null);
    const heard = element => [element.getAttribute('aria-label'), element.getAttribute('aria-valuetext'), typed(element)];
    const texts = element => [...element.childNodes].filter(({ nodeType }) => nodeType === Node.TEXT_NODE).map(node => node.data);
    const walk = element => (shown(element) ? [...heard(element), ...texts(element), ...[...element.children].flatMap(walk)] : []);
    return walk(document.querySelector('main')).map(text => text?.trim()).filter(Boolean);
})()"""
"""Every text of the page that is seen or heard, or is a picture's tip; but for the key, and what is there to be chosen."""

DRAWN = """['said', 'report', 'node', 'score', 'list', 'window', 'counts'].map(id => {
    const part = document.getElementById(id);
    return part.querySelector('svg') ? part.innerHTML : part.innerText;
})"""
"""What a group is shown, as it is drawn."""


def checks() -> Iterator[Named]:
    yield "seen: chosen by keys, and back", chosen
    yield "seen: its own events", events
    for name, script in (("whole-case", WHOLE), ("cannot-tell", example("cannot-tell")), ("sleeper", example("sleeper"))):
        for group in parts(script):
            yield f"seen: {name} by group {group}", partial(only_its_own, script=script, group=group)
    for group in (1, 2):
        yield f"seen: group {group} can't tell a timeout", partial(cannot_tell, group=group)


def parts(script: bytes) -> list[int]:
    """The groups that had the processor or a message."""
    named = {int(line.split(b",")[1]) for line in lines_of(script) if re.match(rb"[ASI],[1-8]\b", line)}
    return sorted(named)


def running(script: bytes) -> list[int]:
    """Who has the processor before each line."""
    found = [0]
    for line, report in zip(lines_of(script), judge.reports(script)):
        given = re.match(rb"[SI],(\d+)", line)
        taken = 0 if line == b"O" else found[-1]
        found.append(int(given[1]) if given and report.answer == 0 else taken)
    return found


def own_lines(script: bytes, group: int) -> list[int]:
    """The lines in which a group takes part, by docs/LISTING.md: its own operations, and its upcalls."""
    rows = zip(lines_of(script), judge.reports(script), running(script))
    return [
        number
        for number, (line, report, runs) in enumerate(rows, 1)
        if report.upcall == group or (chr(line[0]) in OWN and runs == group and report.answer not in (1, 2, 7))
    ]


def chosen(world: World) -> None:
    world.open(WHOLE, hash="line=9")
    world.browser.js("document.getElementById('viewer').focus()")
    world.browser.key("ArrowDown")
    same(world.browser.js("location.hash"), "#line=9&seen=1", "the address seen by group 1")
    world.browser.key("ArrowDown")
    same(world.browser.js("location.hash"), "#line=9&seen=2", "the address seen by group 2")
    holds("What group 2 sees" in world.text("#counts"), "what is seen is not told")
    world.browser.key("Home")
    same(world.browser.js("location.hash"), "#line=9", "the address seen by the archive")
    holds("13 lines" in world.text("#counts"), "the counts are not back")
    quiet(world)


def events(world: World) -> None:
    """Its refusals and upcalls: a trap or a move is none."""
    world.open(WHOLE, hash="line=0&seen=1")
    went = []
    for _ in range(3):
        world.browser.key("n")
        went.append(world.at())
    same(went, [2, 4, 13], "the events of group 1")


def only_its_own(world: World, script: bytes, group: int) -> None:
    own = own_lines(script, group)
    lines = [line.decode() for line in lines_of(script)]
    others = {line for number, line in enumerate(lines, 1) if number not in own} - {lines[number - 1] for number in own}
    world.open(script, hash=f"line=0&seen={group}")
    same(rows(world), [_row(script, number, number in own) for number in range(1, len(lines) + 1)], "the rows")
    for number in range(len(lines) + 1):
        if number:
            world.browser.key("ArrowRight")
        texts = world.browser.js(SEEN)
        same([text for text in texts if OF_THE_KERNEL.search(text)], [], f"line {number}: of the kernel")
        # A single letter is no line of another's where it is only a sign, as the keys are.
        told = [text for text in texts for line in others if re.search(rf"(^|[ :]){re.escape(line)}($|[ :\n])", text)]
        same(told, [], f"line {number}: another's line")
        fills = world.browser.js("Array.from(document.querySelectorAll('#score svg *, #node svg *'), shape => getComputedStyle(shape).fill)")
        same([fill for fill in set(fills) if "p-hatch" in fill or "p-dots" in fill or fill == "rgb(29, 79, 145)"], [], f"line {number}: places")


def rows(world: World) -> list[list[str]]:
    """The cells that are seen."""
    cells = "[...row.cells].filter(cell => cell.checkVisibility()).map(cell => cell.textContent)"
    found: list[list[str]] = world.browser.js(f"[...document.querySelectorAll('#rows tr')].map(row => {cells})")
    return found


def _row(script: bytes, number: int, own: bool) -> list[str]:
    if not own:
        return [str(number), "·", "", "", "", ""]
    report = judge.reports(script)[number - 1]
    line = lines_of(script)[number - 1].decode()
    return [str(number), line, str(report.answer), str(report.value), str(report.upcall), ",".join(map(str, report.sent))]


def cannot_tell(world: World, group: int) -> None:
    """What a group is shown of a run with a timeout and of the same without is the same, sign for sign."""
    shown = []
    for script in (WHOLE, TIMELY):
        world.open(script, hash=f"line=0&seen={group}")
        drawn = [world.browser.js(DRAWN)]
        for _ in lines_of(script):
            world.browser.key("ArrowRight")
            drawn.append(world.browser.js(DRAWN))
        shown.append(drawn)
    for number, (one, other) in enumerate(zip(*shown)):
        same(one, other, f"line {number}")
