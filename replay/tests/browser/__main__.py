"""The checks in a browser: all of them, or the themes that are named. The last line is "N passed, M failed".

    python3 replay/tests/browser [THEME..]
"""

from __future__ import annotations

import importlib
import sys
import tempfile
import time
from pathlib import Path

sys.dont_write_bytecode = True

from browser import Browser
from checks import Checks
from named import run
from world import World

THEMES = ("opening", "node", "score", "stepping", "seen", "saving", "editing", "damage", "looks", "words", "times", "wrong")


def main(themes: list[str]) -> int:
    unknown = set(themes) - set(THEMES)
    if unknown:
        print(f"no such theme: {', '.join(sorted(unknown))}; there are {', '.join(THEMES)}", file=sys.stderr)
        return 2
    count = Checks()
    with tempfile.TemporaryDirectory() as folder, Browser() as browser:
        for theme in themes or THEMES:
            began = time.monotonic()
            pages = Path(folder, theme)
            pages.mkdir()
            run(count, World(browser, pages), importlib.import_module(theme).checks())
            print(f"{theme}: {time.monotonic() - began:.0f} s", flush=True)
    return count.summary()


if __name__ == "__main__":
    sys.exit(main(sys.argv[1:]))
