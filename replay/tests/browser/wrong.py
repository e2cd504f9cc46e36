"""Drawings that are wrong, kept as edits of a made page in replay/tests/wrong: each is refused by the check that it
names."""

from __future__ import annotations

from collections.abc import Iterator
from functools import partial
from pathlib import Path

import looks
import node
import score
import words
from checks import ROOT
from named import Check, Differs, Named, holds
from world import World

EDITS = ROOT / "replay" / "tests" / "wrong"


def checks() -> Iterator[Named]:
    for path in sorted(EDITS.glob("*.edit")):
        yield f"wrong: {path.stem}", partial(refused, path=path)


def _fields(path: Path) -> dict[str, str]:
    rows = (row.partition(": ") for row in path.read_text().splitlines())
    return {name: value for name, _, value in rows if name in ("refused by", "old", "new")}


def _check(name: str) -> Check:
    found = [check for theme in (node, score, words, looks) for named, check in theme.checks() if named == name]
    holds(len(found) == 1, f"{len(found)} checks have the name {name}")
    return found[0]


def refused(world: World, path: Path) -> None:
    fields = _fields(path)

    def edit(page: str) -> str:
        holds(page.count(fields["old"]) == 1, f"what is changed stands {page.count(fields['old'])} times in the page")
        return page.replace(fields["old"], fields["new"])

    edit(world.page(b"").read_text())
    try:
        _check(fields["refused by"])(world.edited(world.folder / path.stem, edit))
    except Differs as error:
        print(f"{path.stem}: {str(error).splitlines()[0][:160]}", flush=True)
    else:
        raise Differs(f"{fields['refused by']} lets it pass")
