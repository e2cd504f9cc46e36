#!/usr/bin/env python3
"""Spells the project's own words as the newer Rattle spells its library's: definitions, fields and variables in snake case.

usage: tools/spelling.py [--list]     at the top of the repository, right behind the toolchain's port script, once

A word of specs/ and proofs/ that began small and had capitals in it, as upFrom, is up_from; in the name of a lemma, whose words are joined by
hyphens, each of them. Types, modules and cases that begin with a capital keep it. Names of src/ have no such words, and stay; so do strings. The
words are turned in specs/, proofs/, what stands in src/ for the prover, must-fail edits, and where documents and checks name them. --list
prints each word with its new spelling, and says which fall together with a word that was there.
"""

import os
import re
import sys

# A word that begins small and has capitals, not within a longer one.
WORD = re.compile(r"(?<![A-Za-z0-9_'·])([a-z][a-z0-9]*(?:[A-Z][a-z0-9]+|[A-Z](?=[A-Z][a-z]))+)(?![A-Za-z0-9_·])")
STRING = re.compile(r'"(?:[^"\\]|\\.)*"')

# Definitions that would be spelled as a function of src/ beside them is, or as a word that the library has.
OTHERWISE = {"goesOn": "goes_further"}

# Lemmas and fields whose hyphen the port script turned into an underscore, and which would fall together with a definition: they get it back.
HYPHENS = {
    "by_bits": ["rules/specs/Turns", "rules/proofs/Demands/TurnsLaws", "node/proofs/turn/MailLaws"],
    "counts_of": ["rules/proofs/Cases/MemoryCasesLaws", "rules/proofs/Cases/TestComputes"],
    "empty_group": ["rules/proofs/Steps/StepLaws"],
    "first_frame": ["node/proofs/message/HeadLaws", "node/proofs/message/first/Proof"],
    "flag_word": ["rules/proofs/Map/MapParts"],
    "in_frame": ["rules/specs/Reading", "rules/proofs/Map/MapHead", "rules/proofs/Touches/DisposeRow"],
    "left_over": ["rules/proofs/Steps/ActLaws", "rules/proofs/Steps/TickLaws"],
    "no_frames": ["rules/specs/Conditions", "rules/proofs/Demands/ConditionsLaws"],
    "node_in": ["rules/proofs/Cases/MemoryParts", "rules/proofs/Cases/TestComputes"],
    "one_line": ["script/proofs/play/CutLaws"],
    "one_more": ["script/proofs/play/CutLaws", "script/proofs/play/PlayLaws", "reasons/proofs/ToldLaws"],
    "place_at": ["validate/proofs/frames/PlaceLaws"],
}


def spelled(word):
    if word in OTHERWISE:
        return OTHERWISE[word]
    return re.sub(r"(?<=[a-z0-9])([A-Z])", lambda m: "_" + m[1].lower(), word).lower()


def files(top, endings):
    for folder, dirs, names in os.walk(top):
        dirs[:] = sorted(d for d in dirs if d not in ("out", "target", ".git", "node_modules"))
        for name in sorted(names):
            if name.endswith(endings):
                yield os.path.join(folder, name)


def read(path):
    with open(path, encoding="utf-8") as f:
        return f.read()


def outside_strings(text, turn):
    """turn is applied to what stands outside strings; a comment has none."""
    out = []
    for line in text.split("\n"):
        at = 0
        for m in STRING.finditer(line):
            comment = line.find("--")
            if 0 <= comment < m.start() or line.lstrip().startswith("//"):
                break
            out.append(turn(line[at : m.start()]))
            out.append(m[0])
            at = m.end()
        out.append(turn(line[at:]) + "\n")
    return "".join(out)[:-1]


def own_words():
    """Each own word and its new spelling: those of specs/ and proofs/."""
    words = {}
    for path in files("crates", (".antt",)):
        outside_strings(read(path), lambda s: words.update((w, spelled(w)) for w in WORD.findall(s)) or s)
    return words


def list_words(words):
    there = set()
    for path in files("crates", (".antt",)):
        there.update(re.findall(r"(?m)^ *(?:pub |abbrev |unfoldable )*([a-z][a-z0-9_]*) :", read(path)))
    by = {}
    for word, new in sorted(words.items()):
        by.setdefault(new, []).append(word)
        print(word, new, "FALLS TOGETHER" if new in there else "")
    for new, olds in by.items():
        if len(olds) > 1:
            print("TWO WORDS", olds, new)


def main():
    words = own_words()
    if sys.argv[1:] == ["--list"]:
        return list_words(words)
    for word, places in HYPHENS.items():
        for place in places:
            path = f"crates/{place}.antt"
            text = read(path)
            with open(path, "w", encoding="utf-8") as f:
                f.write(re.sub(rf"(?<![\w'-]){word}(?![\w'-])", word.replace("_", "-"), text))
    turn = lambda s: WORD.sub(lambda m: words.get(m[1], m[1]), s)
    for path in [*files("crates", (".antt", ".rt", ".edit")), *files("docs", (".md",)), *files(".ci", ("",)), "README.md"]:
        text = read(path)
        if path.endswith((".antt", ".rt")):
            new = outside_strings(text, turn)
        elif path.endswith(".md"):
            # names stand in backquotes there
            new = re.sub(r"`[^`\n]*`", lambda m: turn(m[0]), text)
        else:
            new = turn(text)
        if new != text:
            with open(path, "w", encoding="utf-8") as f:
                f.write(new)


main()
