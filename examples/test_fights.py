"""What players are shown of a fight: pairs of scripts that differ in what is unseen in its list, by the built program. Without it this is
skipped. The pairs stand in runs/fight_pairs.txt.

    cd examples && python3 -m unittest test_fights
"""

import os
import pathlib
import tempfile
import unittest
from dataclasses import dataclass, field

from test_runs import PROGRAM, RUNS, ran

CAMPAIGN = RUNS / "den.json"
HELLOS = "".join(f'{number} {{"do":"hello","seat":{number},"key":"{key}"}}\n' for number, key in enumerate("gab"))


@dataclass
class Pair:
    name: str
    differs: bool  # to seat 1
    scripts: list[str] = field(default_factory=lambda: [HELLOS, HELLOS])


def pairs() -> list[Pair]:
    found: list[Pair] = []
    for line in (RUNS / "fight_pairs.txt").read_text(encoding="utf-8").splitlines():
        mark, _, rest = line.partition(" ")
        if mark in ("==", "!="):
            found.append(Pair(rest, mark == "!="))
        elif mark in (">", "1>", "2>"):
            for place, own in enumerate(("1>", "2>")):
                found[-1].scripts[place] += rest + "\n" if mark in (">", own) else ""
    return found


def lines_to(seat: int, output: str) -> list[str]:
    return [line for line in output.splitlines() if line.startswith(f"{seat}\t")]


@unittest.skipUnless(os.access(PROGRAM, os.X_OK), "the program isn't built")
class Fights(unittest.TestCase):
    maxDiff = None

    def setUp(self):
        folder = tempfile.TemporaryDirectory()
        self.addCleanup(folder.cleanup)
        self.folder = pathlib.Path(folder.name)

    def outputs(self, pair: Pair) -> list[str]:
        """What is printed of each script."""
        played = [ran(["play", str(CAMPAIGN)], script) for script in pair.scripts]
        self.assertEqual([status for status, _ in played], [0, 0])
        return [output for _, output in played]

    def verdict(self, pair: Pair) -> str:
        """Whether seat 1 may know the same of both, as the program tells it."""
        for name, script in zip("ab", pair.scripts):
            (self.folder / name).write_text(script, encoding="utf-8")
        _, said = ran(["compare", str(CAMPAIGN), "a", str(CAMPAIGN), "b", "1"], folder=self.folder)
        return said

    def test_there_are_pairs_of_both_kinds(self):
        differ = [pair.differs for pair in pairs()]
        self.assertGreaterEqual((differ.count(False), differ.count(True)), (10, 2))

    def test_what_is_unseen_in_a_fight_changes_no_byte(self):
        for pair in (pair for pair in pairs() if not pair.differs):
            with self.subTest(pair.name):
                one, other = self.outputs(pair)
                self.assertEqual(lines_to(1, one), lines_to(1, other))
                self.assertNotEqual(lines_to(0, one), lines_to(0, other))  # the game master is told
                self.assertEqual(self.verdict(pair), "agree\n")

    def test_what_is_shown_of_a_fight_is_told(self):
        for pair in (pair for pair in pairs() if pair.differs):
            with self.subTest(pair.name):
                one, other = self.outputs(pair)
                self.assertNotEqual(lines_to(1, one), lines_to(1, other))
                self.assertRegex(self.verdict(pair), "^traces differ at item ")


if __name__ == "__main__":
    unittest.main()
