"""Checks by name, each given the world: one that fails raises Differs, which says what does."""

from __future__ import annotations

import traceback
from collections.abc import Callable, Iterable
from typing import Any

from browser import BrowserError
from checks import Checks, difference
from world import World

__all__ = ["Check", "Differs", "Named", "holds", "run", "same"]

Check = Callable[[World], None]
Named = tuple[str, Check]


class Differs(Exception):
    """What a page has is not what it should have."""


def holds(truth: object, what: str) -> None:
    if not truth:
        raise Differs(what)


def same(got: Any, want: Any, what: str) -> None:
    if got != want:
        raise Differs(f"{what}: {difference(got, want)}")


def run(count: Checks, world: World, checks: Iterable[Named]) -> None:
    """Each of them, counted. One that falls over has failed, and the others are still run."""
    for name, check in checks:
        why = ""
        try:
            check(world)
        except (Differs, BrowserError) as error:
            why = str(error)
        except Exception:
            why = traceback.format_exc()
        count.holds(name, why == "", why)
