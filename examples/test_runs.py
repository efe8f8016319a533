"""Runs of the program over files: what it prints, byte for byte, and its status. Without the built program this is skipped.

    python3 -m unittest examples/test_runs.py

A file of runs/ is a list of runs. A run begins with a line "== NAME"; a line "words WORD.." has the words, with files of runs/; "status N" the
status, where it isn't 0; each line behind "> " is one of the script, and each behind "< " one that is printed, with a space for the TAB behind
a seat's number.
"""

import json
import os
import pathlib
import subprocess
import tempfile
import unittest
from dataclasses import dataclass, field

HERE = pathlib.Path(__file__).resolve().parent
RUNS = HERE / "runs"
PROGRAM = os.environ.get("TABLETOP", str(HERE.parent / "crates" / "tabletop" / "out" / "tabletop"))
USAGE = (
    "tabletop: usage: play FILE [--end], check FILE, drill N LINES, serve FILE PORT COUNT [--end], verify FILE SCRIPT SEAT TRANSCRIPT, "
    "compare FILE SCRIPT FILE SCRIPT SEAT\n"
)
HELLO = '1 {"do":"hello","seat":1,"key":"a"}'
JOINED = '1 {"n":1,"ok":"hello","seat":1,"seats":3}\n1 {"full":{"lights":{},"maps":[],"sights":{},"tokens":[]}}\n'


@dataclass
class Run:
    name: str
    words: list[str] = field(default_factory=list)
    status: int = 0
    script: str = ""
    output: str = ""


def runs_of(name: str) -> list[Run]:
    """The runs of a file of runs/."""
    runs: list[Run] = []
    for line in (RUNS / name).read_text(encoding="utf-8").splitlines():
        mark, _, rest = line.partition(" ")
        if mark == "==":
            runs.append(Run(rest))
        elif mark == "words":
            runs[-1].words = rest.split()
        elif mark == "status":
            runs[-1].status = int(rest)
        elif mark == ">":
            runs[-1].script += rest + "\n"
        elif mark == "<":
            runs[-1].output += rest + "\n"
    return runs


def tabbed(text: str) -> str:
    """The text with a TAB behind each seat's number."""
    lines = text.splitlines(keepends=True)
    return "".join(line.replace(" ", "\t", 1) if line[0].isdigit() else line for line in lines)


def ran(words: list[str], script: str = "", folder: pathlib.Path = RUNS) -> tuple[int, str]:
    """The status of the program over these words and this script, and what it prints."""
    done = subprocess.run([PROGRAM, *words], input=script.encode(), capture_output=True, cwd=folder, timeout=120)
    return done.returncode, done.stdout.decode()


def numbered(count: int, front: str) -> list[str]:
    return [f"{front}{number}" for number in range(count)]


def seat(key: str, macros: dict[str, str], tags: list[str]) -> dict:
    return {"drawn": 0, "fog": {}, "key": key, "macros": macros, "seed": "0" * 64, "tags": tags}


def token(maker: int, tag: str, name: str, count: int) -> dict:
    """A token of the first player's with so many properties of each class."""
    props = [[tag, ""] for tag in numbered(count, "p")]
    return {
        "cell": [0, 0], "id": f"{maker}:{tag}", "layer": "token", "light": None, "map": "maze", "name": name, "own": props, "owners": [1],
        "props": props, "secret": props, "sight": None, "size": 1, "visible": True,
    }


def small_map(name: str) -> dict:
    return {"h": 1, "mbl": [], "mode": "day", "name": name, "rows": ["."], "shown": True, "vbl": [], "w": 1}


def full_campaign() -> str:
    """8 maps, 32 types of lights and of sights, 2,048 walls on one map, 64 properties of each class at one token, as many used tags as the game
    master and a player may use, and 32 macros of a player's."""
    # From the points of the maze's upper half to those of its lower half.
    walls = [[at % 11, at // 11 % 5, at // 55 % 11, 5 + at // 605] for at in range(2048)]
    maze = {"h": 5, "mbl": walls, "mode": "day", "name": "maze", "rows": ["....."] * 5, "shown": True, "vbl": [], "w": 5}
    refused = {
        "budget": "[r,count(1000): 1+1+1+1+1+1]", "fault": "[r: arg(0)]", "full": '[r: setprop("1:t0", "new", 0)]',
        "over": "[r: 999999999 * 999999999 * 999999999]",
    }
    macros = refused | {name: "" for name in numbered(28, "m")}
    seats = [seat("g", {}, numbered(2048, "g")), seat("a", macros, numbered(16, "t")), seat("b", {}, []), seat("c", {}, [])]
    campaign = {
        "format": 1, "lights": {name: 1 for name in numbered(32, "l")}, "maps": [*map(small_map, numbered(7, "m")), maze], "seats": seats,
        "sights": {name: [1, 0, 1] for name in numbered(32, "s")}, "tokens": [token(0, "g0", "Ox", 0), token(1, "t0", "Ann", 64)],
    }
    return json.dumps(campaign)


@unittest.skipUnless(os.access(PROGRAM, os.X_OK), "the program isn't built")
class Runs(unittest.TestCase):
    maxDiff = None

    def setUp(self):
        folder = tempfile.TemporaryDirectory()
        self.addCleanup(folder.cleanup)
        self.folder = pathlib.Path(folder.name)

    def check(self, name: str):
        for run in runs_of(name):
            with self.subTest(run.name):
                self.assertEqual(ran(run.words, run.script), (run.status, tabbed(run.output)))

    def test_plays(self):
        self.check("plays.txt")

    def test_trails_and_darkness(self):
        self.check("trails.txt")

    def test_fights(self):
        self.check("fights.txt")

    def test_macros(self):
        self.check("macros.txt")

    def test_stops(self):
        self.check("stops.txt")

    def test_checks(self):
        self.check("checks.txt")

    def test_verdicts(self):
        self.check("verdicts.txt")

    def test_what_is_unseen_changes_no_roll(self):
        runs = {run.name: run for run in runs_of("plays.txt")}
        alone, among = (runs[name] for name in ("a roll alone", "a roll after what the game master did unseen"))
        lines = [line for line in among.output.splitlines() if line.startswith("1 ")]
        self.assertEqual(lines, alone.output.splitlines())

    def test_each_refusal(self):
        (self.folder / "full.json").write_text(full_campaign(), encoding="utf-8")
        words = ["play", "full.json"]
        hellos = "".join(f'{number} {{"do":"hello","seat":{number},"key":"{key}"}}\n' for number, key in enumerate("gab"))
        lines = (RUNS / "refusals.txt").read_text(encoding="utf-8").splitlines()
        script, refusals = ("".join(line[2:] + "\n" for line in lines if line.startswith(mark)) for mark in "><")
        status, joined = ran(words, hellos, self.folder)
        self.assertEqual(status, 0)
        self.assertEqual(ran(words, hellos + script, self.folder), (0, joined + tabbed(refusals)))

    def test_a_line_has_a_limit(self):
        said = '1 {"n":2,"ok":"say"}\n1 {"from":1,"text":"hi","to":"all"}\n'
        faults = [(4096, 0, said), (4097, 7, "tabletop: bad script line 2\n"), (4111, 8, "tabletop: too large\n")]
        for length, status, answer in faults:
            with self.subTest(length):
                line = '{"do":"say","text":"hi"}'.ljust(length)
                self.assertEqual(ran(["play", "three_seats.json"], f"{HELLO}\n1 {line}\n"), (status, tabbed(JOINED + answer)))

    def test_a_campaign_has_a_limit(self):
        (self.folder / "large.json").write_bytes(b" " * 16_777_217)
        (self.folder / "small").touch()
        words = ("play large.json", "verify small small 1 large.json", "compare small small small large.json 1")
        for line in words:
            with self.subTest(line):
                self.assertEqual(ran(line.split(), folder=self.folder), (8, "tabletop: too large\n"))

    def test_other_words_are_a_usage_fault(self):
        for words in ("play", "play -table.json", "check table.json --end", "drill 7 4", "verify a b 0 c", "compare a b c d 33"):
            with self.subTest(words):
                self.assertEqual(ran(words.split()), (2, USAGE))

    def test_a_campaign_of_either_format_is_written_at_the_end(self):
        text = (RUNS / "three_seats.json").read_text(encoding="utf-8").replace('"format":1', '"format":2')
        (self.folder / "again.json").write_text(text, encoding="utf-8")
        for file in (RUNS / "three_seats.json", self.folder / "again.json"):
            with self.subTest(file.name):
                self.assertEqual(ran(["play", "--end", str(file)]), (0, text))

    def test_what_is_written_is_of_format_2(self):
        written = {"all_parts.json": "all_parts_written.json", "cave.json": "cave_written.json"}
        for name, as_written in written.items():
            text = (RUNS / as_written).read_text(encoding="utf-8")
            for file in (name, as_written):
                with self.subTest(file):
                    self.assertEqual(ran(["play", file, "--end"]), (0, text))

    def test_the_stored_run_is_the_example(self):
        stored = HERE.parent / "crates" / "tabletop"
        for ours, theirs in ((stored / "data" / "table.json", HERE / "cave.json"), (stored / "stdin", HERE / "cave.script")):
            self.assertEqual(ours.read_bytes(), theirs.read_bytes())

    def test_drills(self):
        # What another program counts; the looks and tests, which follow, are this program's own.
        drills = {
            "7 25": "refused 0, sent 68, bytes 41028, seen 1429, looks ", "180 60": "refused 1, sent 215, bytes 67919, seen 1777, looks ",
            "7 2000": "refused 0, sent 7044, bytes 1121577, seen 1272, looks ",
        }
        for words, counts in drills.items():
            with self.subTest(words):
                number, lines = words.split()
                status, line = ran(["drill", number, lines])
                self.assertEqual((status, line.startswith(f"drill {number}: lines {lines}, {counts}")), (0, True), line)
                self.assertEqual(ran(["drill", number, lines]), (0, line))


if __name__ == "__main__":
    unittest.main()
