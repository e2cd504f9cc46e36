"""A line in words: every operation, answer, trap and reason of docs/LISTING.md has its words and is met; they tell what report, reason and
memory hold, and no other number; and a group's own words tell nothing that is not its own."""

from __future__ import annotations

import json
import re
from collections.abc import Iterator
from dataclasses import dataclass
from functools import lru_cache, partial
from typing import Any

from checks import ROOT
from named import Differs, Named, holds, same
from seen import OF_THE_KERNEL, OWN
from world import World, examples, lines_of, told, vectors

SEED = "27"
LINES = 400
"""Of each random script, one a flavour; and so many of a vector's are told."""

VALUED = "CMEPL"
FLAGS = ("atomic", "pending", "force", "revoked")

TELL = """async (begin, bytes) => {
    globalThis.calls ??= await provedCalls(codeBytes());
    const words = begin === 'power-on' ? calls.powerOn() : new Uint32Array(100);
    const start = changesText(new Uint32Array(words.length), words);
    const file = { ...view.run.data, begin, first: 1, memory: words.length, start };
    const run = makeRun(playedRun(calls, file, '', Uint8Array.from(bytes)));
    const own = i => Object.fromEntries(Array.from(run.parts, g => [g, privateWords(run, i, g)]));
    const told = ({ number, shown, report, changes, reason }) => [shown, report, changes, reason, wordsOf(run, number), own(number)];
    return [run.data.start, run.data.lines.map(told)];
}"""
"""A script played in the page, as the page shows it to agree with the native calls: of each line what stands in the run, its words, and
those of each group that has a part; from power-on, or from a memory that is no node."""


def checks() -> Iterator[Named]:
    for table in ("answers", "traps", "reasons"):
        yield f"words: the table of {table}", partial(table_as_documented, table=table)
    yield "words: every operation is in the key", operations_in_key
    for name in SENTENCES:
        yield f"words: {name}", partial(every_line, name=name)
    yield "words: all is met", all_met
    yield "words: of a group's own, by what it sees alone", own_alone


# ---- the tables of docs/LISTING.md


@lru_cache(maxsize=None)
def rows_under(heading: str, header: str) -> list[list[str]]:
    """The rows of the table below a heading that begins so."""
    text = (ROOT / "docs" / "LISTING.md").read_text()
    part = text.partition(f"\n## {heading}\n")[2].partition("\n## ")[0]
    table = part.partition(f"\n| {header} |")[2].partition("\n\n")[0]
    found = [[cell.strip() for cell in row.strip("|").split("|")] for row in table.splitlines()[2:]]
    holds(found, f"docs/LISTING.md has no table {header} under {heading}")
    return found


def documented(table: str) -> dict[str, str]:
    """Numbers and words. Answer 1 goes on behind its first sentence with who meets it; 0 is no trap."""
    if table == "answers":
        words = {row[0]: row[2] for row in rows_under("Answers", "answer")}
        return words | {"1": words["1"].partition(". ")[0]}
    if table == "traps":
        return {row[0]: row[1] for row in rows_under("Traps", "trap") if row[1]}
    return {row[0]: row[1] for row in rows_under("Why was this message buffered", "reason")}


def table_as_documented(world: World, table: str) -> None:
    _page(world)
    same(world.browser.js(table.upper()), documented(table), "the table")


def operations() -> dict[str, list[int]]:
    """The answers that each operation can have, beside 1 and 2."""
    return {row[0]: [int(answer) for answer in row[1].split(",")] for row in rows_under("The columns", "operation")}


def operations_in_key(world: World) -> None:
    _page(world)
    key = world.browser.js("Array.from(document.querySelectorAll('#key > p b'), letter => letter.textContent)")
    same(sorted(key), sorted(operations()), "the operations")
    for row in rows_under("Operations", "line"):
        holds(re.match(r"`([A-Z])", row[0])[1] in key, f"the key has no {row[0]}")


# ---- every line of many scripts, told by the page


@dataclass(frozen=True)
class State:
    """What words tell of a memory, by docs/MEMORY.md; of each group its flags, how many messages its buffer has, and its first and its last page."""

    running: int
    timer: int
    queued: int
    sent_out: int
    brought_in: int
    flags: dict[int, list[int]]
    count: dict[int, int]
    first: dict[int, int]
    last: dict[int, int]


def state(memory: list[int]) -> State:
    record = {group: 196 + 112 * (group - 1) for group in range(1, 9)}
    return State(
        running=memory[0],
        timer=memory[1],
        queued=memory[2],
        sent_out=memory[8006],
        brought_in=memory[8007],
        flags={group: memory[at : at + 4] for group, at in record.items()},
        count={group: memory[at + 5] for group, at in record.items()},
        first={group: memory[at + 16] for group, at in record.items()},
        last={group: memory[at + 15 + min(max(memory[at + 6], 1), 96)] for group, at in record.items()},
    )


@dataclass(frozen=True)
class Line:
    """A line of a run as the file has it, what stands in memory before and after it, and what the page says of it."""

    text: str
    report: list[int]
    changes: str
    reason: dict[str, int] | None
    before: State
    after: State
    words: list[str]
    own: dict[str, list[str]]

    @property
    def operation(self) -> str:
        return self.text[:1]

    @property
    def accepted(self) -> bool:
        return self.report[0] == 0

    @property
    def said(self) -> str:
        return " ".join(self.words)


def _page(world: World) -> None:
    world.open(b"")


@lru_cache(maxsize=1)
def lines(world: World) -> list[Line]:
    """All lines of the examples, the first of the vectors, a random script of each flavour, and some on a memory that is no node."""
    _page(world)
    flavours = [row.split()[0] for row in told("scripts", "--list").decode().splitlines()]
    scripts = [path.read_bytes() for path in examples()] + [told("scripts", SEED, str(LINES), flavour) for flavour in flavours]
    scripts += [b"".join(line + b"\n" for line in lines_of(path.read_bytes())[:LINES]) for path in vectors()]
    found = [line for script in scripts for line in _lines(world, "power-on", script)]
    return found + list(_lines(world, "no-node", b"A,1,7\nM\nO\n\n"))


def _lines(world: World, begin: str, script: bytes) -> Iterator[Line]:
    start, rows = world.browser.js(f"({TELL})({json.dumps(begin)}, {json.dumps(list(script))})")
    memory = [0] * 8104
    _put(memory, start)
    before = state(memory)
    for text, report, changes, reason, words, own in rows:
        _put(memory, changes)
        after = state(memory)
        yield Line(text, report, changes, reason, before, after, words, own)
        before = after


def _put(memory: list[int], changes: str) -> None:
    for piece in changes.split():
        address, words = piece.split("=")
        for i, word in enumerate(words.split(","), int(address)):
            memory[i] = int(word)


def every_line(world: World, name: str) -> None:
    for line in lines(world):
        try:
            SENTENCES[name](line)
        except Differs as error:
            raise Differs(f"{line.text[:80]} ({line.report}): {error}\n{line.said}") from None


# ---- what the words of a line have to say, each for every line


def whole(line: Line) -> None:
    """Sentences, with nothing in them that code says by mistake."""
    holds(line.words, "no words")
    for sentence in line.words:
        quoted = sentence.startswith("This line can't be read: ")
        holds(quoted or re.fullmatch(r"[A-Z0-9].*[.?]", sentence), f"no sentence: {sentence}")
        holds(quoted or not re.search(r"undefined|NaN|null|object|  | [.,]", sentence), f"not in words: {sentence}")


def refusal(operation: str, answer: int) -> str:
    """What docs/LISTING.md says of an answer, the part that is for an operation."""
    words = documented("answers")[str(answer)]
    if answer < 3:
        return words
    parts = re.split(r"[.;] (?=[A-Z]:)|; ", words)
    own = next(part for part in parts if operation in re.findall(r"\b[A-Z]\b", part.partition(":")[0]))
    return own.partition(": ")[2]


def refusals(line: Line) -> None:
    refused = [sentence for sentence in line.words if "efused" in sentence]
    if line.accepted:
        same(refused, [], "refused")
    else:
        answer = line.report[0]
        same(refused, [f"Refused with {answer}: {refusal(line.operation, answer)}."], "refused")
        same(line.words[-1], "Nothing changes.", "the last sentence")


def nothing(line: Line) -> None:
    """That nothing changes is said where no word of memory did; but not of a question that was answered."""
    want = line.changes == "" and not (line.accepted and line.operation in "CME")
    same("Nothing changes." in line.words, want, "that nothing changes")


def values(line: Line) -> None:
    if not line.accepted or line.operation not in VALUED:
        return
    value = line.report[1]
    none = {"C": "No group has mail.", "M": "None does."}
    some = {
        "C": f"Group {value}",
        "M": f"One does, of {value} word",
        "E": f"It is {value:,}, read from",
        "P": f"The descriptor has {value} word",
        "L": f"{value} word{'s are' if value > 1 else ' is'} sent, stamped with group {line.before.running};",
    }
    want = none.get(line.operation, some[line.operation]) if value == 0 else some[line.operation]
    holds(want in line.said, f"it is not said: {want}")


def traps(line: Line) -> None:
    trap = line.report[2]
    found = re.findall(r"the kernel steps in \(trap (\d), ([\w-]+)\)", line.said)
    same(found, [(str(trap), documented("traps")[str(trap)])] if trap else [], "traps")


def upcalls(line: Line) -> None:
    upcall = line.report[3]
    same(re.findall(r"Upcall: group (\d) is told", line.said), [str(upcall)] if upcall else [], "upcalls")


def moves(line: Line) -> None:
    moved = line.report[4]
    same(re.findall(r"\(moved (\d+)\)", line.said), [str(moved)] if moved else [], "moved")


def _page_words(page: int) -> str:
    return f"the buffer, frame {page}" if page < 32 else f"the buffer, swap page {page - 32}"


def places(line: Line) -> None:
    """Where a message is that is asked for, read or disposed of, and where one goes that arrives."""
    running = line.before.running
    if not line.accepted or line.operation not in "AMED" or (line.operation == "M" and line.report[1] == 0):
        return
    if line.operation == "A":
        page = line.after.last[int(line.text.split(",")[1])] if line.report[4] else None
    else:
        page = line.before.first[running] if line.before.count[running] else None
    want = "the hardware queue" if page is None else _page_words(page)
    holds(want in line.said, f"it is not said: {want}")
    holds(page is not None or "the buffer," not in line.said, "it is said to be in a buffer")


def flags(line: Line) -> None:
    """Those that went on or off; an upcall tells by itself of the two that it sets."""
    told_by_upcall = ("atomic", "pending") if line.report[3] else ()
    want = {}
    for group in range(1, 9):
        for flag, was, now in zip(FLAGS, line.before.flags[group], line.after.flags[group]):
            if was != now and flag not in told_by_upcall:
                want[group, flag] = "on" if now else "off"
    found = {}
    for group, turned in re.findall(r"Group (\d): ([^.:]*? (?:on|off))\.", line.said):
        for names, how in re.findall(r"([a-z, ]+) (on|off)\b", turned):
            found |= {(int(group), flag): how for flag in re.findall(r"[a-z]{4,}", names)}
    same(found, want, "flags")


def timer(line: Line) -> None:
    was, now = line.before.timer, line.after.timer
    found = re.findall(r"The timer goes from (\d+) to (\d+) of 256\.", line.said)
    same(found, [(str(was), str(now))] if was != now else [], "the timer")


def pages(line: Line) -> None:
    for how, count in (
        ("sent out to swap", line.after.sent_out - line.before.sent_out),
        ("brought in", line.after.brought_in - line.before.brought_in),
    ):
        found = re.findall(rf"(\d+) pages? (?:is|are) {how}", line.said)
        same(found, [str(count)] if count else [], f"pages {how}")


def reasons(line: Line) -> None:
    if line.reason is None:
        holds("eason" not in line.said, "a reason is told, and there is none")
        return
    number, at = line.reason["number"], line.reason["line"]
    words = documented("reasons")[str(number)]
    want = rf"Reason {number}: {words} at line {at}\b" if number < 3 else rf"at line {at}, reason {number}: {words}\."
    same(len(re.findall(want, line.said)), 1, f"reason {number} at line {at}")


def numbers(line: Line) -> None:
    """Each stands in the script's line, the report, the reason, the tables or what memory holds of what is told."""
    before, after = line.before, line.after
    known = [*re.findall(r"\d+", line.text), *line.report, *(line.reason or {}).values(), line.text.count(",") - 1, 256]
    known += re.findall(r"\d+", refusal(line.operation, line.report[0]).replace(",", ""))
    known += [before.running, after.running, before.timer, after.timer, after.queued - 1]
    known += [after.sent_out - before.sent_out, after.brought_in - before.brought_in]
    if before.running in before.count:
        known += [before.count[before.running], before.first[before.running] % 32, before.first[before.running] - 32]
    if line.operation == "A" and line.accepted:
        known += [after.last[int(line.text.split(",")[1])]]
    known += [group for group in range(1, 9) if before.flags[group] != after.flags[group]]
    said = " ".join(sentence for sentence in line.words if not sentence.startswith("This line can't be read: "))
    found = {int(number.replace(",", "")) for number in re.findall(r"\d{1,3}(?:,\d{3})+|\d+", said)}
    same(sorted(found - set(map(int, known))), [], "numbers that stand nowhere")


def own_words(line: Line) -> None:
    """A group's words name no other group and nothing of the kernel's; where it has no part it notices nothing."""
    for name, sentences in line.own.items():
        group = int(name)
        said = " ".join(sentences)
        holds(not OF_THE_KERNEL.search(said), f"to group {group} it is said: {said}")
        same(set(re.findall(r"[Gg]roup (\d+)", said)) - {name}, set(), f"other groups, told to group {group}: {said}")
        if sees(line, group) == NOTHING:
            same(sentences, [f"Group {group} notices nothing."], f"to group {group}")
        else:
            holds("notices nothing" not in said, f"to group {group} it is said: {said}")


NOTHING = ("", (), False, False, False)


def sees(line: Line, group: int) -> tuple[Any, ...]:
    """What a group sees of a line, by docs/LISTING.md: its operation and answer, its upcall, and that it got or lost the processor."""
    answer, value, _, upcall, _, *sent = line.report
    own = line.before.running == group and line.operation in OWN and answer not in (1, 2, 7)
    had, has = line.before.running == group, line.after.running == group
    return line.text if own else "", (answer, value, *sent) if own else (), upcall == group, has and not had, had and not has


SENTENCES = {
    "whole sentences": whole,
    "refusals, by number and words": refusals,
    "nothing changes": nothing,
    "values": values,
    "traps": traps,
    "upcalls": upcalls,
    "moves": moves,
    "places": places,
    "flags": flags,
    "the timer": timer,
    "pages": pages,
    "reasons": reasons,
    "numbers": numbers,
    "a group's own": own_words,
}


# ---- what all lines together meet


def all_met(world: World) -> None:
    met = {(line.operation, line.report[0]) for line in lines(world)}
    wanted = {(operation, answer) for operation, answers in operations().items() for answer in answers}
    same(sorted(wanted - met), [], "operations and answers that are not met")
    same(sorted(set(map(int, documented("answers"))) - {answer for _, answer in met}), [], "answers that are not met")
    same({line.report[2] for line in lines(world)}, {0, 1, 2, 3}, "traps")
    same({str(line.reason["number"]) for line in lines(world) if line.reason}, set(documented("reasons")), "reasons")
    same({line.operation for line in lines(world) if line.report[3]}, set("AISN"), "operations with an upcall")
    same({line.operation for line in lines(world) if line.report[4]}, set("AOSTD"), "operations that move messages")


def own_alone(world: World) -> None:
    """Two lines of which a group sees the same have the same words for it, whatever else they did."""
    found: dict[tuple[Any, ...], list[str]] = {}
    for line in lines(world):
        for group, sentences in line.own.items():
            seen = (group, *sees(line, int(group)))
            same(sentences, found.setdefault(seen, sentences), f"to group {group}, {line.text[:80]}")
    holds(len(found) > 500, f"only {len(found)} of them differ")
