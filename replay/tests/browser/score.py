"""The score, read back from where its signs and bars lie: after each line each message stands, solid, hatched or
dotted, where the judge's facts have it, and runs, queue, flags, upcalls, traps, launches, reasons and answers are those
of the listing and the facts."""

from __future__ import annotations

import re
from collections.abc import Collection, Iterator
from dataclasses import dataclass
from functools import partial
from typing import Any

import judge
from judge import FLAGS, GROUPS, Facts
from named import Named, holds, same
from node import READING
from world import World, examples, lines_of

NEAR = 1.0
"""Pixels by which a sign may stand beside its line's moment."""


def checks() -> Iterator[Named]:
    for script in examples():
        yield f"score: {script.stem}", partial(drawn_as_told, script=script.read_bytes())


@dataclass(frozen=True)
class Thing:
    """What is drawn: its name, in what, its text and fill, and from where to where it goes."""

    at: str
    within: str
    text: str
    fill: str
    counts: list[int]
    x: float
    end: float


class Score:
    """What a page shows of a score: its columns, and what is drawn by the beginning of its name."""

    def __init__(self, read: dict[str, Any]) -> None:
        self.columns = {line: (x, width) for line, x, width in read["columns"]}
        self.first, self.last = min(self.columns), max(self.columns)
        self.things = [_thing(one) for one in read["drawn"]]

    def states(self) -> range:
        """The lines after which something holds: before the first column, too."""
        return range(self.first - 1, self.last + 1)

    def moment(self, line: int) -> float:
        x, width = self.columns[line]
        return x + width / 2

    def holds_at(self, line: int) -> float:
        """Where what holds after a line is drawn: between its moment and the next one's."""
        x, width = self.columns[max(line, self.first)]
        return x + width * (0.75 if line >= self.first else 0.25)

    def named(self, pattern: str) -> Iterator[tuple[re.Match[str], Thing]]:
        for thing in self.things:
            found = re.fullmatch(pattern, thing.at)
            if found:
                yield found, thing

    def crowded(self) -> set[int]:
        """The groups of whom more wait than bars fit."""
        return {int(found[1]) for found, _ in self.named(r"lane (\d) heights \w+")}

    def lines_of(self, thing: Thing) -> list[int]:
        """The lines after which it holds, by where it lies."""
        return [i for i in self.states() if thing.x < self.holds_at(i) < thing.end]

    def line_at(self, thing: Thing) -> int:
        """The line at whose moment a sign stands in the middle."""
        middle = (thing.x + thing.end) / 2
        found = [i for i in self.columns if abs(self.moment(i) - middle) <= NEAR]
        return found[0] if found else 0


def _thing(read: dict[str, Any]) -> Thing:
    counts = [int(count) for count in read["counts"].split(",") if count]
    return Thing(read["at"], read["within"], read["text"], read["fill"], counts, read["x"], read["x"] + read["width"])


def windows(script: bytes) -> list[int]:
    """Lines to stand at, so that all of a run is seen."""
    count = len(lines_of(script))
    return [count] if count < 30 else [*range(0, count, 25), count]


def drawn_as_told(world: World, script: bytes) -> None:
    world.open(script)
    world.browser.js(READING)
    seen: set[int] = set()
    for line in windows(script):
        score = Score(world.browser.js(f"go({line}), readBack.score()"))
        seen |= score.columns.keys()
        facts = {i: judge.after(script, i) for i in score.states()}
        messages(score, facts)
        states(score, facts)
        signs(score, facts, script)
        lives(score, facts, script)
    same(sorted(seen), list(range(1, len(lines_of(script)) + 1)), "the lines that were seen")


def _by_line(score: Score, name: str, told: Any) -> str:
    return f"lines {score.first} to {score.last}, {name} after line {told}"


def messages(score: Score, facts: dict[int, Facts]) -> None:
    """Bars, or where more wait than bars fit their heights: where each message stands after each line."""
    drawn: dict[int, dict[int, str]] = {i: {} for i in score.states()}
    for found, thing in score.named(r"lane \d message (\d+) (queue|frame|swap)"):
        for i in score.lines_of(thing):
            drawn[i][int(found[1])] = thing.fill
    crowded = score.crowded()
    for i, now in facts.items():
        want = {message.line: place for message, place in now.stands.items() if message.group not in crowded}
        same(drawn[i], want, _by_line(score, "messages", i))
    for group in crowded:
        heights(score, facts, group)


def heights(score: Score, facts: dict[int, Facts], group: int) -> None:
    for found, thing in score.named(rf"lane {group} heights (\w+)"):
        same(thing.fill, found[1], f"the fill of {thing.at}")
        own = [[place for message, place in now.stands.items() if message.group == group] for now in facts.values()]
        want = [places.count(found[1]) for places in own]
        same(thing.counts, want, thing.at)


def states(score: Score, facts: dict[int, Facts]) -> None:
    """Who runs, the queue's cells, the timer, the flags, the pages in use."""
    spans(score, r"runs ([1-8])", "runs", {i: {str(now.running)} - {"0"} for i, now in facts.items()})
    for flag in FLAGS:
        want = {i: {str(g) for g in GROUPS if now.groups[g].flags[flag]} for i, now in facts.items()}
        spans(score, rf"lane (\d) {flag}", flag, want)
    cells: dict[int, dict[int, str]] = {i: {} for i in score.states()}
    for found, thing in score.named(r"line (\d+) queue (\d+)"):
        same(score.lines_of(thing), [int(found[1])], f"where {thing.at} lies")
        cells[int(found[1])][int(found[2])] = thing.fill + (f" {thing.text}" if thing.text else "")
    for i, now in facts.items():
        _queue(_by_line(score, "queue", i), cells[i], now)
    for found, thing in score.named(r"timer|pages (frame|swap)"):
        used = {"frame": lambda now: len(now.entry), "swap": lambda now: judge.SWAP - len(now.swap_free)}
        want_counts = [used[found[1]](now) if found[1] else now.timer for now in facts.values()]
        same(thing.counts, want_counts, thing.at)


def _queue(what: str, cells: dict[int, str], now: Facts) -> None:
    """The running group's are filled; where there is room each says whose it is."""
    same(sorted(cells), list(range(len(now.queue))), what)
    for place, message in enumerate(now.queue):
        fill = "queue" if message.group == now.running else "waits"
        numbered = f"{fill} {message.group}"
        holds(cells[place] in (fill, numbered), f"{what}: place {place} is {cells[place]}, not {numbered}")


def spans(score: Score, pattern: str, name: str, want: dict[int, set[str]]) -> None:
    drawn: dict[int, set[str]] = {i: set() for i in score.states()}
    for found, thing in score.named(pattern):
        for i in score.lines_of(thing):
            drawn[i].add(found[1])
    for i in score.states():
        same(drawn[i], want[i], _by_line(score, name, i))


def signs(score: Score, facts: dict[int, Facts], script: bytes) -> None:
    """What a line says and does: operation, answer, moved, timeout, trap, upcall, launch."""
    want: dict[str, str] = {}
    for i in score.columns:
        want |= _signs(i, facts, judge.reports(script)[i - 1], lines_of(script)[i - 1].decode("latin-1")[:1])
    drawn = score.named(r"line \d+ (answer|moved|timeout|trap|upcall|launch).*")
    got = {thing.at: f"{thing.text} in {thing.within}" for _, thing in drawn}
    for at in sorted(got.keys() | want.keys()):
        same(got.get(at), want.get(at), f"lines {score.first} to {score.last}, {at}")
    for found, thing in score.named(r"line (\d+) (answer|timeout|trap|operation)(.*)"):
        moment = score.moment(int(found[1]))
        holds(thing.x - NEAR <= moment <= thing.end + NEAR, f"{thing.at} does not stand at its line")


def _signs(i: int, facts: dict[int, Facts], report: judge.Report, operation: str) -> dict[str, str]:
    found = {}
    lane = f"lane {facts[i].running}"
    if report.answer:
        found[f"line {i} answer"] = f"×{report.answer} in "
    elif operation in "CMEPL":
        found[f"line {i} answer"] = f"={report.value} in "
    if report.moved:
        found[f"line {i} moved {report.moved}"] = f"↓{report.moved} in "
    if report.trap:
        found[f"line {i} trap {report.trap}"] = f"{report.trap} in {lane}"
    if report.trap == 3:
        found[f"line {i} timeout"] = "timeout in "
    if report.upcall:
        found[f"line {i} upcall {report.upcall}"] = f" in lane {report.upcall}"
    if report.sent:
        found[f"line {i} launch {report.sent[0]}"] = f"{report.sent[0]} in {lane}"
    return found


def lives(score: Score, facts: dict[int, Facts], script: bytes) -> None:
    """What is read, disposed of, and why it was buffered: each at its line and at its message, where bars are drawn."""
    crowded = score.crowded()
    drawn = set()
    for found, thing in score.named(r"lane (\d) message (\d+) (read|end|reason (\d))"):
        if int(found[1]) not in crowded:
            drawn.add((int(found[2]), found[3], score.line_at(thing)))
            holds(found[4] is None or thing.text == found[4], f"{thing.at} says {thing.text}")
    want = set(_lives(score.columns, facts, script, crowded))
    same(sorted(drawn), sorted(want), f"lines {score.first} to {score.last}, what is read, ended and why")


Life = tuple[int, str, int]
"""The line of a message's arrival, what happens to it, and at which line."""


def _lives(columns: Collection[int], facts: dict[int, Facts], script: bytes, crowded: set[int]) -> Iterator[Life]:
    for i in columns:
        operation = lines_of(script)[i - 1][:1]
        before = facts[i - 1]
        if operation in (b"E", b"D") and judge.reports(script)[i - 1].answer == 0 and before.running not in crowded:
            own = [m for m in before.arrived if m.group == before.running]
            first = own[-before.groups[before.running].count - before.queued(before.running)]
            yield first.line, "read" if operation == b"E" else "end", i
    for message in facts[max(facts)].arrived:
        reason, at = judge.reasons(script)[message.line]
        if reason > 2 and at in columns and message.group not in crowded:
            yield message.line, f"reason {reason}", at
