"""What a node holds after a line, by the judge's facts, and what is reckoned from them: by the sentences of
docs/LISTING.md, and not by the page's code."""

from __future__ import annotations

import re
from dataclasses import dataclass
from functools import cached_property, lru_cache

from world import lines_of, told

FRAMES = 32
SWAP = 64
PAGE = 8
PLACES = 16
GROUPS = range(1, 9)
FLAGS = ("atomic", "pending", "force", "revoked")

_GROUP = re.compile(
    r"group (\d) atomic (\d) pending (\d) force (\d) revoked (\d) h (\d+) n (\d+) pages(.*) descriptor(.*)"
)


@dataclass(frozen=True)
class Message:
    """The line it arrived by, its group and its words."""

    line: int
    group: int
    words: tuple[int, ...]


@dataclass(frozen=True)
class Group:
    flags: dict[str, int]
    used: int
    count: int
    pages: tuple[str, ...]
    descriptor: tuple[int, ...]


@dataclass(frozen=True)
class Facts:
    """A node as the judge tells it. Pages are named f0 or s3; `kept` has the length and the words of a page's place."""

    text: str
    running: int
    timer: int
    queue: tuple[Message, ...]
    free: tuple[int, ...]
    entry: tuple[int, ...]
    swap_free: tuple[int, ...]
    sent_out: int
    brought_in: int
    groups: dict[int, Group]
    kept: dict[tuple[str, int], tuple[int, ...]]
    arrived: tuple[Message, ...]

    def case(self, group: int) -> str:
        """A group is buffered while its buffer holds a message or the group is revoked, else direct."""
        if self.groups[group].count:
            return "buffered"
        return "revoked" if self.groups[group].flags["revoked"] else "direct"

    def queued(self, group: int) -> int:
        return sum(message.group == group for message in self.queue)

    def pledge(self, group: int) -> int:
        """(h + n + k) / 8, rounded up."""
        return -(-(self.groups[group].used + self.groups[group].count + self.queued(group)) // PAGE)

    def mail(self, group: int) -> bool:
        return self.groups[group].count + self.queued(group) > 0

    def forced(self) -> bool:
        return self.running > 0 and self.groups[self.running].flags["force"] == 1

    def counts(self) -> bool:
        """The timer runs while the hardware queue holds a message or it is forced."""
        return len(self.queue) > 0 or self.forced()

    def owner(self, page: str) -> int:
        """The group whose page it is, 0 for nobody."""
        return next((number for number, group in self.groups.items() if page in group.pages), 0)

    def filled(self, page: str) -> list[int]:
        return sorted(place for name, place in self.kept if name == page)

    def buffer(self, group: int) -> list[tuple[Message, str, int]]:
        """The messages of a buffer, each with its page and place there: first in, first out, so that they are the last
        that came for the group, but for those queued."""
        own = self.groups[group]
        if own.count == 0:
            return []
        came = [message for message in self.arrived if message.group == group]
        kept = came[len(came) - own.count - self.queued(group) : len(came) - self.queued(group)]
        places = range(own.used, own.used + own.count)
        return [(message, own.pages[p // PAGE], p % PAGE) for message, p in zip(kept, places)]

    @cached_property
    def stands(self) -> dict[Message, str]:
        """Where each waiting message stands: queue, frame or swap."""
        found = {message: "queue" for message in self.queue}
        for group in GROUPS:
            found |= {message: "swap" if page[0] == "s" else "frame" for message, page, _ in self.buffer(group)}
        return found


@dataclass(frozen=True)
class Report:
    """A line of the listing: what stands behind the line's number."""

    answer: int
    value: int
    trap: int
    upcall: int
    moved: int
    sent: tuple[int, ...]


@lru_cache(maxsize=None)
def listing(script: bytes) -> str:
    return told("fugu", script=script).decode()


@lru_cache(maxsize=None)
def reports(script: bytes) -> list[Report]:
    """By the proved program, which the judge's listing is held against elsewhere."""
    rows = [[int(field) for field in row.split(",")] for row in listing(script).splitlines()[1:]]
    return [Report(*row[1:6], tuple(row[6:])) for row in rows]


@lru_cache(maxsize=None)
def reasons(script: bytes) -> dict[int, tuple[int, int]]:
    """Of each accepted arrival, by its line, the reason and the line that it is named with."""
    rows = re.findall(r"^line (\d+): reason (\d+) at line (\d+):", told("why", "--all", script=script).decode(), re.M)
    return {int(line): (int(reason), int(at)) for line, reason, at in rows}


@lru_cache(maxsize=None)
def arrivals(script: bytes) -> tuple[Message, ...]:
    """The messages that were accepted."""
    found = []
    for number, (line, report) in enumerate(zip(lines_of(script), reports(script)), 1):
        if line.startswith(b"A,") and report.answer == 0:
            group, *words = map(int, line[2:].split(b","))
            found.append(Message(number, group, tuple(words)))
    return tuple(found)


@lru_cache(maxsize=4096)
def after(script: bytes, line: int) -> Facts:
    """The node after so many lines of a script."""
    begin = b"".join(text + b"\n" for text in lines_of(script)[:line])
    arrived = tuple(message for message in arrivals(script) if message.line <= line)
    return _read(told("judge", "--after", script=begin).decode(), arrived)


def _read(text: str, arrived: tuple[Message, ...]) -> Facts:
    """The facts tell a queued message's words with zeros up to eight. The queue is first in, first out, so its messages
    are the last that came."""
    rows = text.splitlines()
    named = {name: rest for name, _, rest in (row.partition(" ") for row in rows)}
    count = sum(row.startswith("queued ") for row in rows)
    out, in_ = re.fullmatch(r"(\d+) in (\d+)", named["out"]).groups()
    return Facts(
        text=text,
        running=int(named["running"]),
        timer=int(named["timer"]),
        queue=arrived[len(arrived) - count :],
        free=_numbers(named["free"]),
        entry=_numbers(named["entry"]),
        swap_free=_numbers(named["swap-free"]),
        sent_out=int(out),
        brought_in=int(in_),
        groups=dict(_group(row) for row in rows if row.startswith("group ")),
        kept=dict(_place(row) for row in rows if re.match(r"[fs]\d", row)),
        arrived=arrived,
    )


def _numbers(text: str) -> tuple[int, ...]:
    return tuple(map(int, text.split()))


def _group(row: str) -> tuple[int, Group]:
    number, *flags, used, count, pages, descriptor = _GROUP.fullmatch(row).groups()
    told_flags = dict(zip(FLAGS, map(int, flags)))
    return int(number), Group(told_flags, int(used), int(count), tuple(pages.split()), _numbers(descriptor))


def _place(row: str) -> tuple[tuple[str, int], tuple[int, ...]]:
    page, _, place, _, length, _, *words = row.split()
    return (page, int(place)), tuple(map(int, words[: int(length)]))
