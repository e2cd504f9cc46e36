"""What the page draws of the node after a line, read back, is what the judge's facts say; the facts that the page
reckons are reckoned again; and what is outlined is exactly what differs from the line before, by place."""

from __future__ import annotations

import re
from collections.abc import Callable, Iterator
from functools import partial
from pathlib import Path
from typing import Any

import judge
from judge import FLAGS, FRAMES, GROUPS, PAGE, PLACES, SWAP, Facts
from named import Named, holds, same
from world import World, examples, lines_of

MESSAGE = 8
"""Words of a message, and of a descriptor."""

READING = Path(__file__).with_name("reading.js").read_text()

Read = dict[str, Any]


def checks() -> Iterator[Named]:
    for script in examples():
        yield f"node: {script.stem}", partial(drawn_as_told, script=script.read_bytes())


def lines(script: bytes) -> list[int]:
    """The lines after which a node is read: all of them, of a long script each tenth and the last sixty."""
    count = len(lines_of(script))
    return [i for i in range(count + 1) if count <= 300 or i % 10 == 0 or i > count - 60]


def drawn_as_told(world: World, script: bytes) -> None:
    world.open(script)
    world.browser.js(READING)
    world.browser.js("document.getElementById('stateBox').open = true")
    for line in lines(script):
        drawn = world.browser.js(f"go({line}), readBack.node()")
        now = judge.after(script, line)
        before = judge.after(script, line - 1) if line else None
        found = read(drawn)
        compare(f"line {line}", found, told(before, now, Step(script, line)))
        same(world.text("#state"), now.text, f"line {line}, the node as text")
        outlined = {thing["at"].removesuffix(" changed") for thing in drawn if thing["at"].endswith(" changed")}
        same(sorted(outlined), sorted(changed(before, now, found)), f"line {line}, outlined")


def compare(what: str, got: Read, want: Read) -> None:
    """All that is drawn is what is to be; of a line that is drawn in part, that part."""
    for name in sorted(got.keys() | want.keys()):
        one, other = got.get(name), want.get(name)
        if re.fullmatch(r"group \d line", name):
            holds(len(one[0]) >= min(4, len(other[0])), f"{what}: of {name} only {len(one[0])} are drawn")
            other = (other[0][: len(one[0])], other[1])
        same(one, other, f"{what}: {name}")


# ---- what is drawn


def read(drawn: list[dict[str, str]]) -> Read:
    """By its name what each thing shows; a line is what is drawn of it, and how many messages it has."""
    found: Read = {}
    for thing in drawn:
        at = thing["at"]
        if not at.endswith(" changed"):
            found |= _shown(at, thing)
    for group in GROUPS:
        found[f"group {group} line"] = _line(found, group)
    return found


def _shown(at: str, thing: dict[str, str]) -> Read:
    """One thing: a message by its title, which is whole, and has to begin as what is written; a lamp by its fill."""
    if re.fullmatch(r"queue \d+|group \d line \d+|group \d descriptor \d", at):
        return {at: _message(thing)}
    if re.fullmatch(r"group \d (flag \w+|mail)|page \d+ place \d", at):
        return {at: {"ink": "on", "paper": "off"}.get(thing["fill"], thing["fill"])}
    if re.fullmatch(r"page \d+", at):
        return {at: thing["fill"]}
    if at in ("next frame", "next swap", "oldest"):
        return {at: thing["within"]}
    if re.fullmatch(r"group \d (runs|upcall|used \d)|timeout", at):
        return {at: True}
    if at.startswith("way "):
        return {at: thing["look"] == "p-way-used"}
    if re.fullmatch(r"group \d", at):
        return {}
    return {at: thing["text"]}


def _message(thing: dict[str, str]) -> tuple[str, str]:
    whole = thing["title"]
    written = thing["text"]
    group, _, words = whole.rpartition(": ")
    want = f"{group.removeprefix('group ')} {words}".strip()
    begin = written.removesuffix("…").rstrip()
    fits = want.startswith(begin) and (want == begin or written != begin)
    holds(fits, f"{thing['at']} is written {written}, and is {whole}")
    return thing["fill"], whole


def _line(found: Read, group: int) -> tuple[list[Any], int]:
    """What is drawn of a group's line, and how many messages it has."""
    cells = []
    while f"group {group} line {len(cells)}" in found:
        cells.append(found.pop(f"group {group} line {len(cells)}"))
    more = found.pop(f"group {group} more", "+ 0")
    return cells, len(cells) + int(more.removeprefix("+ ").replace(",", ""))


# ---- what is to be drawn


class Step:
    """A line and its report; before the first line nothing is done."""

    def __init__(self, script: bytes, line: int) -> None:
        self.operation = lines_of(script)[line - 1][:1].decode("latin-1") if line else ""
        self.report = judge.reports(script)[line - 1] if line else judge.Report(0, 0, 0, 0, 0, ())

    def does(self, operations: str) -> bool:
        """It is one of these, and accepted."""
        return self.operation != "" and self.operation in operations and self.report.answer == 0


def told(before: Facts | None, now: Facts, step: Step) -> Read:
    found = _ways(before, step) | _head(now, step) | _pages(now)
    for group in GROUPS:
        found |= _group(now, step, group)
    return found


def _ways(before: Facts | None, step: Step) -> Read:
    """A message is read direct where its group's first stands in the hardware queue."""
    moved = step.report.moved
    return {
        "way from the network": step.does("A"),
        "way direct": before is not None and step.does("ED") and before.groups[before.running].count == 0,
        "way to the buffers": moved > 0,
        "moved": f"moved {moved} to the buffers" if moved else "to the buffers",
    }


def _head(now: Facts, step: Step) -> Read:
    reads = "reads direct" if now.running and now.case(now.running) == "direct" else "reads from its buffer"
    counts = "forced" if now.forced() else "counts" if now.counts() else "stands"
    found: Read = {
        "queue": f"{len(now.queue)} of {PLACES} places; the head is at the right",
        "processor": f"Processor group {now.running} {reads}" if now.running else "Processor nobody",
        "timer": f"{now.timer} of 256 {counts}",
        "pledges": f"sum of the pledges {sum(map(now.pledge, GROUPS))} of {FRAMES + SWAP}",
    }
    if step.report.trap == 3:
        found["timeout"] = True
    for place in range(PLACES):
        message = now.queue[place] if place < len(now.queue) else None
        words = f"group {message.group}: {_words(message.words)}" if message else ""
        found[f"queue {place}"] = ("queue" if message else "paper", words)
    return found


def _words(words: tuple[int, ...]) -> str:
    return " ".join(map(str, words))


def _group(now: Facts, step: Step, group: int) -> Read:
    own = now.groups[group]
    at = f"group {group}"
    cells = [("swap" if page[0] == "s" else "frame", _words(message.words)) for message, page, _ in now.buffer(group)]
    cells += [("queue", _words(message.words)) for message in now.queue if message.group == group]
    found: Read = {
        f"{at} case": now.case(group),
        f"{at} line": (cells, len(cells)),
        f"{at} pledge": str(now.pledge(group)),
        f"{at} mail": "on" if now.mail(group) else "off",
    }
    found |= {f"{at} flag {flag}": "on" if own.flags[flag] else "off" for flag in FLAGS}
    found |= {f"{at} used {place}": True for place in range(own.used)}
    found |= {f"{at} runs": True} if now.running == group else {}
    found |= {f"{at} upcall": True} if step.report.upcall == group else {}
    for i in range(MESSAGE):
        found[f"{at} descriptor {i}"] = ("paper", str(own.descriptor[i]) if i < len(own.descriptor) else "")
    return found


def _name(page: int) -> str:
    return f"f{page}" if page < FRAMES else f"s{page - FRAMES}"


def _pages(now: Facts) -> Read:
    found: Read = {
        "frames": f"{len(now.entry)} of {FRAMES} in use; a page holds {PAGE} messages",
        "swap": f"{SWAP - len(now.swap_free)} of {SWAP} in use",
        "sent out": f"sent out so far {now.sent_out}",
        "brought in": f"brought in so far {now.brought_in}",
    }
    for page in range(FRAMES + SWAP):
        owner = now.owner(_name(page))
        kind = "frame" if page < FRAMES else "swap"
        found[f"page {page}"] = kind if owner else "paper"
        if owner:
            found[f"page {page} owner"] = str(owner)
            for place in range(PAGE):
                found[f"page {page} place {place}"] = "on" if place in now.filled(_name(page)) else "off"
    found |= {"next frame": f"page {now.free[0]}"} if now.free else {}
    found |= {"next swap": f"page {FRAMES + now.swap_free[0]}"} if now.swap_free else {}
    found |= {"oldest": f"page {now.entry[0]}"} if now.entry else {}
    return found


# ---- what is to be outlined: where the facts before the line and after it differ


def _placed() -> dict[str, Callable[[Facts], Any]]:
    """What is always at its place, by name, and what of the facts it shows."""
    found: dict[str, Callable[[Facts], Any]] = {
        "processor": lambda facts: facts.running,
        "timer": lambda facts: facts.timer,
        "sent out": lambda facts: facts.sent_out,
        "brought in": lambda facts: facts.brought_in,
    }
    for place in range(PLACES):
        found[f"queue {place}"] = lambda facts, i=place: [(one.group, one.words) for one in facts.queue[i : i + 1]]
    for group in GROUPS:
        at = f"group {group}"
        found[f"{at} case"] = lambda facts, g=group: facts.case(g)
        found[f"{at} pledge"] = lambda facts, g=group: facts.pledge(g)
        found[f"{at} mail"] = lambda facts, g=group: facts.mail(g)
        for flag in FLAGS:
            found[f"{at} flag {flag}"] = lambda facts, g=group, f=flag: facts.groups[g].flags[f]
        for i in range(MESSAGE):
            found[f"{at} descriptor {i}"] = lambda facts, g=group, k=i: facts.groups[g].descriptor[k : k + 1]
    for page in map(_name, range(FRAMES + SWAP)):
        found[f"page {_number(page)}"] = lambda facts, p=page: (facts.owner(p), _kept(facts, p))
    return found


def _number(page: str) -> int:
    return int(page[1:]) + (FRAMES if page[0] == "s" else 0)


def _kept(facts: Facts, page: str) -> list[tuple[int, ...] | None]:
    return [facts.kept.get((page, place)) for place in range(PAGE)]


PLACED = _placed()


def changed(before: Facts | None, now: Facts, found: Read) -> set[str]:
    """What is drawn and shows something else than before the line: a message, where its place held something else."""
    if before is None:
        return set()
    names = {at for at, of in PLACED.items() if of(before) != of(now)}
    for page, place in ((page, place) for page in range(FRAMES + SWAP) for place in range(PAGE)):
        if now.owner(_name(page)) and before.kept.get((_name(page), place)) != now.kept.get((_name(page), place)):
            names.add(f"page {page} place {place}")
    for group in GROUPS:
        first = now.groups[group].pages[0] if now.groups[group].pages else ""
        for place in range(now.groups[group].used):
            if before.kept.get((first, place)) != now.kept.get((first, place)):
                names.add(f"group {group} used {place}")
        names |= _cells_changed(before, now, group, len(found[f"group {group} line"][0]))
    return names


def _cells_changed(before: Facts, now: Facts, group: int, drawn: int) -> set[str]:
    """Of the messages of a group's line that are drawn, those that were not at their places before."""
    same_place = [before.kept.get((page, place)) == message.words for message, page, place in now.buffer(group)]
    for place, message in enumerate(now.queue):
        if message.group == group:
            held = before.queue[place : place + 1]
            same_place.append([(one.group, one.words) for one in held] == [(message.group, message.words)])
    return {f"group {group} line {i}" for i, kept in enumerate(same_place[:drawn]) if not kept}
