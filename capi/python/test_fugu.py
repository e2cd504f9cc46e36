"""Tests of fugu.py: the listings and reasons of vectors/, what is refused, memory of any kind, and calls that
are wrong."""

import doctest
import os
import random
import re
import subprocess
import sys
import threading
import unittest
from pathlib import Path
from typing import Iterator, List, Tuple

import fugu

ROOT = Path(__file__).resolve().parents[2]
HEADER = "line,answer,value,trap,upcall,moved\n"


def load_tests(_loader: unittest.TestLoader, tests: unittest.TestSuite, _pattern: object) -> unittest.TestSuite:
    """The examples of the docstrings are tests too."""
    tests.addTests(doctest.DocTestSuite(fugu))
    return tests


def scripts() -> List[Path]:
    found = sorted([*ROOT.glob("vectors/*/*.script"), *ROOT.glob("examples/*.script")])
    assert len(found) > 200, "the scripts of vectors/ are there"
    return found


def cut(script: bytes, chance: random.Random) -> Iterator[bytes]:
    """Portions of random sizes, empty ones among them."""
    while script:
        size = chance.choice((0, 1, 2, 7, 129, 4096))
        yield script[:size]
        script = script[size:]


class Scripts(unittest.TestCase):
    def test_listings(self) -> None:
        chance = random.Random(1998)
        for path in scripts():
            with self.subTest(path.name):
                expected = path.with_suffix(".listing").read_text("ascii")
                self.assertEqual(fugu.listing(path.read_bytes()), expected)
                self.assertEqual(fugu.listing(cut(path.read_bytes(), chance)), expected)
                with path.open("rb") as file:
                    self.assertEqual(fugu.listing(file), expected)

    def test_lines(self) -> None:
        """Line by line the reports are the listing's."""
        for path in scripts():
            with self.subTest(path.name):
                node = fugu.Node()
                lines = path.read_bytes().split(b"\n")
                lines = lines if lines[-1] else lines[:-1]
                reports = [f"{number},{node.line(line)}\n" for number, line in enumerate(lines, 1)]
                self.assertEqual(HEADER + "".join(reports), path.with_suffix(".listing").read_text("ascii"))

    def test_more_than_the_room_for_output(self) -> None:
        lines = fugu.listing("M\n" * 50000).splitlines()
        self.assertEqual(len(lines), 50001)
        self.assertEqual(lines[-1], "50000,7,0,0,0,0")

    def test_two_runs_on_one_node(self) -> None:
        node = fugu.Node()
        self.assertEqual(fugu.listing("S,1\n", node), HEADER + "1,0,0,0,0,0\n")
        self.assertEqual("".join(node.play("A,1,7")), HEADER + "1,0,0,0,1,0\n")
        self.assertEqual(node.head(), (7,))

    def test_each_line_is_listed_as_it_comes(self) -> None:
        played = fugu.play(iter(["S,1\n", "A,1,7\n"]))
        self.assertEqual([next(played), next(played)], [HEADER, "1,0,0,0,0,0\n"])

    def test_nothing_behind_the_end(self) -> None:
        player = fugu.Player()
        self.assertEqual(player.finish(), "")
        self.assertRaises(ValueError, player.feed, "M\n")
        self.assertRaises(ValueError, player.finish)


class Reasons(unittest.TestCase):
    @staticmethod
    def rows(path: Path) -> Iterator[Tuple[int, str]]:
        for row in path.read_text("ascii").splitlines():
            line, told = row.split(" ", 1)
            yield int(line), told

    def test_vectors(self) -> None:
        paths = sorted(ROOT.glob("vectors/*/*.why"))
        self.assertGreater(len(paths), 20)
        for path in paths:
            script = path.with_suffix(".script").read_bytes()
            expected = {line: told for line, told in self.rows(path) if told.startswith("reason")}
            told = {why.line: f"reason {int(why.reason)} line {why.at}" for why in fugu.why_all([script])}
            with self.subTest(path.name):
                self.assertEqual(told, expected)

    def test_each_line_of_one(self) -> None:
        path = ROOT / "examples" / "why.script"
        script = path.read_bytes()
        all_told = {why.line: why for why in fugu.why_all(script)}
        self.assertEqual({why.reason for why in all_told.values()}, set(fugu.Reason))
        for line in range(script.count(b"\n") + 2):
            if line in all_told:
                self.assertEqual(fugu.why(script, line), all_told[line])
            else:
                self.assertRaises(fugu.Refused, fugu.why, script, line)

    def test_words(self) -> None:
        """The library has the same words for a reason."""
        fed = fugu._Fed(fugu.Node(), fugu._TELL_STATE, fugu._library.fugu_tell, fugu._library.fugu_tell_end)
        script = (ROOT / "examples" / "why.script").read_bytes()
        text = fed.feed(script) + fed.finish()
        self.assertEqual(text, "".join(f"{why}\n" for why in fugu.why_all(script)))

    def test_refused(self) -> None:
        with self.assertRaises(fugu.Refused) as refused:
            fugu.why("S,1\nA,1,7\n?\n", 3)
        self.assertEqual((refused.exception.answer, refused.exception.line), (fugu.Answer.UNREADABLE, 3))
        with self.assertRaises(fugu.Refused) as refused:
            fugu.why("S,1\n", 1)
        self.assertEqual(refused.exception.answer, fugu.Answer.NO_ARRIVAL)
        self.assertEqual(str(refused.exception), "line 1: refused with 17: it is no accepted arrival of this script")


class Steps(unittest.TestCase):
    def test_report(self) -> None:
        node = fugu.Node()
        node.step("S", 3)
        node.step("P", 9)
        node.step("P", 8)
        report = node.step("L", 63)
        self.assertEqual(report, (0, 2, 0, 0, 0, (63, 3, (9, 8))))
        self.assertEqual((report.sent.node, report.sent.group, report.sent.words), (63, 3, (9, 8)))
        self.assertEqual(str(report), "0,2,0,0,0,63,3,9,8")

    def test_refusals(self) -> None:
        node = fugu.Node()
        before = bytes(node)
        cases = {
            fugu.Answer.UNREADABLE: ("Q",), fugu.Answer.BAD_GROUP: ("A", 9, 1), fugu.Answer.BAD_WORDS: ("A", 1),
            fugu.Answer.NOBODY_RUNS: ("M",), fugu.Answer.BAD_SCHEDULE: ("S", 9), fugu.Answer.BAD_TICKS: ("T", 0),
        }
        for answer, step in cases.items():
            with self.subTest(answer.name):
                report = node.step(*step)
                self.assertEqual(report, (answer, 0, 0, 0, 0, None))
                self.assertFalse(report.accepted)
        self.assertEqual(bytes(node), before)

    def test_all_pages_taken(self) -> None:
        node = fugu.Node()
        for _ in range(768):
            self.assertTrue(node.step("A", 1, 7).accepted)
        self.assertEqual(node.step("A", 1, 7).answer, fugu.Answer.NO_PAGES)

    def test_traps(self) -> None:
        node = fugu.Node()
        traps = [node.line(line).trap for line in ("S,1", "A,1,7", "T,256", "D", "N")]
        self.assertEqual(traps, [0, 0, fugu.Trap.TIMEOUT, fugu.Trap.DISPOSE_EXTEND, fugu.Trap.ATOMICITY_EXTEND])

    def test_head_and_paging(self) -> None:
        node = fugu.Node()
        self.assertEqual((node.head(), list(node.head_part())), ((), []))
        for _ in range(257):
            node.step("A", 2, 5, 6)
        node.step("S", 2)
        self.assertEqual((node.head(), node.paging()), ((5, 6), (2, 1)))
        self.assertEqual([node.memory[at] for at in node.head_part()], [5, 6])

    def test_wrong_calls(self) -> None:
        node = fugu.Node()
        for wrong in (("", 1), ("SS", 1), ("é", 1), ("S", -1), ("S", 1 << 32)):
            with self.subTest(wrong):
                self.assertRaises(ValueError, node.step, *wrong)
        self.assertRaises(TypeError, node.step, "S", "1")
        self.assertRaises(TypeError, node.line, None)
        self.assertRaises(ValueError, fugu.why, "S,1", -1)
        self.assertEqual(node.line("S,é").answer, fugu.Answer.UNREADABLE)
        self.assertEqual(node.line(b"M\0").answer, fugu.Answer.UNREADABLE)


class Memory(unittest.TestCase):
    def test_whole_case(self) -> None:
        """In and out as bytes: a copy goes on as the node does."""
        script = (ROOT / "examples" / "whole-case.script").read_text("ascii").splitlines()
        node = fugu.Node()
        for line in script:
            again = fugu.Node(bytes(node))
            words = fugu.Node(list(node.memory))
            self.assertEqual(again.line(line), node.line(line))
            words.line(line)
            self.assertTrue(again == node == words)
            self.assertTrue(node.test())
        self.assertEqual(len(bytes(node)), 4 * fugu.SIZE)

    def test_no_node(self) -> None:
        for memory in (b"", bytes(4 * fugu.SIZE), bytes(4 * fugu.SIZE - 4), [1] * fugu.SIZE, []):
            node = fugu.Node(memory)
            before = bytes(node)
            self.assertFalse(node.test())
            self.assertEqual(node.line("S,1").answer, fugu.Answer.NOT_NODE)
            self.assertEqual(fugu.listing("S,1\nx\n", node), HEADER + "1,1,0,0,0,0\n2,1,0,0,0,0\n")
            self.assertEqual((node.head(), node.paging()), ((), (0, 0)))
            self.assertEqual(bytes(node), before)

    def test_power_on(self) -> None:
        node = fugu.Node([7] * (fugu.SIZE + 2))
        self.assertTrue(node.power_on().accepted)
        self.assertTrue(node.test())
        self.assertEqual(list(node.memory[fugu.SIZE:]), [7, 7])
        self.assertEqual(fugu.Node([7] * (fugu.SIZE - 1)).power_on().answer, fugu.Answer.NOT_NODE)

    def test_copies_are_apart(self) -> None:
        node = fugu.Node()
        other = node.copy()
        other.step("S", 1)
        self.assertNotEqual(other, node)
        self.assertNotEqual(node, "a node")

    def test_wrong_memory(self) -> None:
        for memory in (b"123", [-1], [1 << 32]):
            self.assertRaises(ValueError, fugu.Node, memory)

    def test_threads(self) -> None:
        """Threads that step one node keep it a node."""
        node = fugu.Node()

        def steps() -> None:
            for line in ["S,1", "A,1,7", "A,2,5", "D", "N", "O", "S,2", "D", "N"] * 200:
                node.line(line)

        threads = [threading.Thread(target=steps) for _ in range(4)]
        for thread in threads:
            thread.start()
        for thread in threads:
            thread.join()
        self.assertTrue(node.test())


class Header(unittest.TestCase):
    """The names and numbers are those of fugu.h."""

    text = (ROOT / "capi" / "fugu.h").read_text("ascii")
    numbers = dict(re.findall(r"^ +FUGU_([A-Z_]+) = (\d+)", text, re.MULTILINE))

    def test_names(self) -> None:
        names = {
            **{answer.name: answer for answer in fugu.Answer},
            **{f"TRAP_{trap.name}": trap for trap in fugu.Trap if trap},
            **{reason.name: reason for reason in fugu.Reason},
        }
        for name, number in names.items():
            self.assertEqual(self.numbers.get(name), str(int(number)), name)

    def test_sizes(self) -> None:
        sizes = {
            "SIZE": fugu.SIZE, "REPORT": fugu._REPORT, "HEAD": fugu._HEAD, "PAGING": fugu._PAGING, "WHY": fugu._WHY,
            "HEADER": fugu._HEADER, "FEED_STATE": fugu._FEED_STATE, "TELL_STATE": fugu._TELL_STATE,
            "FEED_KEPT": fugu._KEPT, "TELL_KEPT": fugu._KEPT, "FEED": fugu._PART, "TELL": fugu._PART,
            "STOP": fugu._STOP, "WRITTEN": fugu._WRITTEN, "USED": fugu._USED,
            "ALL_USED": fugu._ALL_USED, "NO_ROOM": fugu._NO_ROOM,
        }
        for name, size in sizes.items():
            self.assertEqual(self.numbers.get(name), str(size), name)
        self.assertGreater(fugu._ROOM, int(self.numbers["TELL_OUT"]))


class Library(unittest.TestCase):
    def imported(self, library: str) -> "subprocess.CompletedProcess[str]":
        environment = {**os.environ, "FUGU_LIBRARY": library}
        command = [sys.executable, "-B", "-c", "import fugu"]
        folder = ROOT / "capi" / "python"
        return subprocess.run(command, env=environment, cwd=folder, stderr=subprocess.PIPE, text=True, check=False)

    def test_not_there(self) -> None:
        done = self.imported("/nowhere/libfugu.so.0")
        self.assertNotEqual(done.returncode, 0)
        self.assertIn("ImportError: libfugu can't be loaded: /nowhere/libfugu.so.0", done.stderr)

    def test_another_library(self) -> None:
        done = self.imported("libc.so.6")
        self.assertIn("ImportError: libc.so.6 has no call fugu_size", done.stderr)


if __name__ == "__main__":
    unittest.main()
