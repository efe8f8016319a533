"""A long evening, a drill's counts and the deepest macro, by the built program. Without it this is skipped.

    python3 -m unittest examples/test_evening.py
"""

import json
import os
import pathlib
import random
import resource
import subprocess
import tempfile
import unittest

HERE = pathlib.Path(__file__).resolve().parent
PROGRAM = os.environ.get("TABLETOP", str(HERE.parent / "crates" / "tabletop" / "out" / "tabletop"))
PLAYERS = 4
LINES = 1200
SIDE = 60
MAPS = ["cellar", "hall", "roof"]
# How many looks the drill 7 of 25 lines takes: a count of this program's own, which changes with what it has to look for alone.
LOOKS_OF_A_DRILL = 16
# The longest chain that a macro's text of 2,000 bytes holds: each sum stands in the one before.
DEEPEST = "[r: 1" + "+1" * 997 + "]"
MEBIBYTE = 1 << 20


def wall(rng):
    """A wall of some cells, along a row or a column, by its ends in half cells."""
    x, y, length = 2 * rng.randrange(4, SIDE - 12), 2 * rng.randrange(4, SIDE - 12), 2 * rng.randrange(1, 8)
    return [x, y, x + length, y] if rng.random() < 0.5 else [x, y, x, y + length]


def walls(rng, count):
    return [list(ends) for ends in sorted({tuple(wall(rng)) for _ in range(count)})]


def grid(rng, name):
    return {"name": name, "w": SIDE, "h": SIDE, "mode": "day", "shown": True, "rows": ["." * SIDE] * SIDE, "vbl": walls(rng, 100), "mbl": []}


def token(rng, number):
    """One of forty tokens with twelve properties: each player has five, the game master the others."""
    owner = number % 8 if number % 8 <= PLAYERS else 0
    names = [f"stat{place}" for place in range(12)]
    return {
        "id": f"{owner}:tok{number}",
        "name": f"Token {number}",
        "map": MAPS[number % 3],
        "cell": [rng.randrange(SIDE), rng.randrange(SIDE)],
        "size": 1,
        "layer": "token",
        "owners": [owner] if owner else [],
        "visible": number % 5 != 0,
        "sight": "human" if owner else None,
        "light": "torch" if number % 4 == 0 else None,
        "props": [[name, str(rng.randrange(100))] for name in names[:6]],
        "own": [[name, str(rng.randrange(100))] for name in names[6:9]],
        "secret": [[name, str(rng.randrange(100))] for name in names[9:]],
    }


def seat(number, tokens):
    tags = [found["id"].partition(":")[2] for found in tokens if found["id"].startswith(f"{number}:")]
    macros = {"attack": '[r: 1d20] [r: 1d6 + 2] [r: setprop(arg(0), "stat0", 7)]'}
    return {"key": f"key{number}", "seed": f"{number}" * 64, "drawn": 0, "tags": tags, "macros": macros, "fog": {}}


def campaign(rng):
    tokens = [token(rng, number) for number in range(40)]
    return {
        "format": 1,
        "lights": {"torch": 4},
        "sights": {"human": [12, 0, 2]},
        "maps": [grid(rng, name) for name in MAPS],
        "seats": [seat(number, tokens) for number in range(PLAYERS + 1)],
        "tokens": sorted(tokens, key=lambda found: (int(found["id"].partition(":")[0]), found["id"])),
    }


def one_line(rng, number, own):
    """What a player does: it speaks, rolls, moves a step, notes a property or runs its macro."""
    kind = rng.randrange(10)
    if kind < 3:
        return {"do": "say", "text": f"player {number} says {rng.randrange(1000)}"}
    if kind < 5:
        return {"do": "roll", "dice": "2d6+3", "to": rng.choice(["all", "self", "gm"])}
    if kind < 8:
        moved = rng.choice(own)
        x, y = moved["at"]
        moved["at"] = [x + (1 if x < SIDE - 1 else -1), y]
        return {"do": "move", "token": moved["id"], "path": [moved["at"]]}
    if kind < 9:
        return {"do": "setprop", "token": rng.choice(own)["id"], "class": "own", "name": "stat6", "value": str(rng.randrange(100))}
    return {"do": "macro", "name": "attack", "args": [rng.choice(own)["id"]], "to": "self"}


def script(rng, table):
    """All players speak in turn, 1,200 lines each; the game master exposes ground, and dumps at the end."""
    own = {number: [{"id": found["id"], "at": found["cell"]} for found in table["tokens"] if found["owners"] == [number]] for number in range(1, PLAYERS + 1)}
    lines = [(number, {"do": "hello", "seat": number, "key": f"key{number}"}) for number in range(PLAYERS + 1)]
    for turn in range(LINES - 1):
        lines += [(number, one_line(rng, number, own[number])) for number in own]
        if turn % 100 == 0:
            lines.append((0, {"do": "expose", "seat": 1, "map": "hall", "rect": [0, turn // 100, 10, 1]}))
    return [*lines, (1, {"do": "dump"}), (0, {"do": "dump"})]


def played(table, lines, **how):
    text = "".join(f"{number} {json.dumps(line)}\n" for number, line in lines)
    with tempfile.TemporaryDirectory() as folder:
        file = pathlib.Path(folder) / "campaign.json"
        file.write_text(json.dumps(table), encoding="utf-8")
        return subprocess.run([PROGRAM, "play", str(file)], input=text.encode(), capture_output=True, timeout=300, **how)


def replies(ran):
    """The replies that were sent: pairs of a seat and a line's value."""
    pairs = [line.split("\t") for line in ran.stdout.decode().splitlines()]
    values = [(int(number), json.loads(line)) for number, line in pairs]
    return [(number, value) for number, value in values if "ok" in value or "refused" in value]


@unittest.skipUnless(os.access(PROGRAM, os.X_OK), "the program isn't built")
class Evenings(unittest.TestCase):
    def test_a_long_evening_meets_no_limit(self):
        rng = random.Random(11)
        table = campaign(rng)
        lines = script(rng, table)
        ran = played(table, lines)
        sent = replies(ran)
        self.assertEqual((ran.returncode, len(sent)), (0, len(lines)))
        refused = [(number, value) for number, value in sent if "refused" in value]
        self.assertEqual([(number, value["refused"]) for number, value in refused], [(1, "GmOnly")])
        self.assertEqual(sent[-1][1]["ok"], "dump")

    def test_a_drill_counts_its_looks(self):
        said = [subprocess.run([PROGRAM, "drill", "7", "25"], capture_output=True, check=True, timeout=60).stdout for _ in range(2)]
        self.assertEqual(said[0], said[1])
        self.assertIn(f", looks {LOOKS_OF_A_DRILL}, tested ", said[0].decode())

    def test_the_deepest_macro_runs_in_a_mebibyte_of_stack(self):
        rng = random.Random(11)
        table = campaign(rng)
        lines = [(1, {"do": "hello", "seat": 1, "key": "key1"}), (1, {"do": "setmacro", "name": "deep", "text": DEEPEST}), (1, {"do": "macro", "name": "deep", "to": "self"})]
        ran = played(table, lines, preexec_fn=lambda: resource.setrlimit(resource.RLIMIT_STACK, (MEBIBYTE, MEBIBYTE)))
        self.assertEqual((ran.returncode, [value.get("ok") for _, value in replies(ran)]), (0, ["hello", "setmacro", "macro"]))
        self.assertIn('"text":"998"', ran.stdout.decode())


if __name__ == "__main__":
    unittest.main()
