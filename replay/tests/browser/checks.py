"""Checks that are counted, and where the project's parts are."""

from pathlib import Path
from typing import Any, Callable

__all__ = ["Checks", "ROOT", "difference"]

ROOT = Path(__file__).resolve().parents[3]
"""The project's folder."""

_SHOWN = 600


class Checks:
    """One that fails is told at once; `summary` writes the last line, and its value is the exit status."""

    def __init__(self) -> None:
        self._passed = 0
        self._failed = 0

    def holds(self, name: str, what: bool, told: Any = "") -> bool:
        """A check that something is so."""
        if what:
            self._passed += 1
        else:
            self._failed += 1
            print(f"FAILED {name}\n{str(told)[:_SHOWN]}".rstrip(), flush=True)
        return what

    def equal(self, name: str, got: Any, wanted: Any) -> bool:
        """A check that two are equal; of two lists, or two texts by their lines, the first that differ are told."""
        if got == wanted:
            return self.holds(name, True)
        return self.holds(name, False, difference(got, wanted))

    def fails(self, name: str, what: Callable[[], Any]) -> bool:
        """A check that something raises an exception."""
        try:
            got = what()
        except Exception:  # Whichever it is.
            return self.holds(name, True)
        return self.holds(name, False, f"it did not fail: {got}")

    def summary(self) -> int:
        print(f"{self._passed} passed, {self._failed} failed")
        return int(self._failed > 0 or self._passed == 0)


def difference(got: Any, wanted: Any) -> str:
    """Where two differ: of two lists, or two texts by their lines, the first place."""
    if isinstance(got, str) and isinstance(wanted, str):
        got, wanted = got.splitlines(), wanted.splitlines()
    if isinstance(got, list) and isinstance(wanted, list):
        for i, (one, other) in enumerate(zip(got, wanted)):
            if one != other:
                return f"at {i}: got {one!r}\n  wanted {other!r}"
        return f"got {len(got)}, wanted {len(wanted)} of them"
    return f"got {got!r}\n  wanted {wanted!r}"
