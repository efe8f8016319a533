"""The examples of docs/PROTOCOL.md played by the built program. Without the program they are skipped.

    python3 -m unittest examples/test_protocol.py
"""

import json
import os
import pathlib
import re
import subprocess
import tempfile
import unittest

HERE = pathlib.Path(__file__).resolve().parent
PROGRAM = os.environ.get("TABLETOP", str(HERE.parent / "crates" / "tabletop" / "out" / "tabletop"))
PROTOCOL = HERE.parent / "docs" / "PROTOCOL.md"


def token(name, **parts):
    """A token of the campaign that the examples speak of, with these parts in place of the plain ones."""
    plain = {"cell": [0, 0], "id": name, "layer": "token", "light": None, "map": "cave", "name": name, "own": [], "owners": [],
             "props": [], "secret": [], "sight": None, "size": 1, "visible": True}
    return {**plain, **parts}


def seat(key, *tags):
    return {"drawn": 0, "fog": {}, "key": key, "macros": {}, "seed": "0" * 64, "tags": list(tags)}


CAVE = {"h": 3, "mbl": [], "mode": "day", "name": "cave", "rows": ["..."] * 3, "shown": True, "vbl": [], "w": 3}
CAMPAIGN = {
    "format": 1, "lights": {}, "maps": [CAVE], "seats": [seat("g", "orc"), seat("a", "ann")], "sights": {"human": [10, 0, 2]},
    "tokens": [token("0:orc", layer="hidden", props=[["hp", "9"]]),
               token("1:ann", owners=[1], sight="human", props=[["hp", "10"]], own=[["mp", "5"]])],
}
HELLOS = [(0, {"do": "hello", "key": "g", "seat": 0}), (1, {"do": "hello", "key": "a", "seat": 1})]


def examples():
    """The lines of the document's block of macros: a text, and what comes of it."""
    block = re.search(r"^```macros\n(.*?)^```$", PROTOCOL.read_text(encoding="utf-8"), re.M | re.S)
    return [tuple(line.split(" => ")) for line in block[1].splitlines()]


def played(lines):
    """What each seat is sent by these lines, as pairs of the seat and the line's value."""
    script = "".join(f"{number} {json.dumps(line)}\n" for number, line in lines)
    with tempfile.TemporaryDirectory() as folder:
        file = pathlib.Path(folder) / "campaign.json"
        file.write_text(json.dumps(CAMPAIGN), encoding="utf-8")
        ran = subprocess.run([PROGRAM, "play", str(file)], input=script.encode(), capture_output=True, check=True, timeout=60)
    parts = [line.split("\t") for line in ran.stdout.decode().splitlines()]
    return [(int(number), json.loads(line)) for number, line in parts]


def refusal(line):
    """How the examples write a refusal."""
    at = f" at {line['at']}" if "at" in line else ""
    return line.get("kind", line["refused"]) + at


def what_comes(text):
    """What the document is to say of the macro."""
    sent = played([*HELLOS, (1, {"do": "setmacro", "name": "m", "text": text}),
                   (1, {"args": ["k"], "do": "macro", "name": "m", "to": "self"})])
    for _, line in sent:
        if "refused" in line:
            return refusal(line)
    told = sorted((number, line["text"]) for number, line in sent if "text" in line)
    return ", ".join(f"{number} {json.dumps(said)}" for number, said in told) or "nothing"


@unittest.skipUnless(os.access(PROGRAM, os.X_OK), "the program isn't built")
class Macros(unittest.TestCase):
    def test_each_example_comes_as_told(self):
        for text, told in examples():
            with self.subTest(macro=text):
                self.assertEqual(what_comes(text), told)

    def test_each_kind_of_fault_has_an_example(self):
        text = PROTOCOL.read_text(encoding="utf-8")
        table = text[text.index("kind | where\n"):text.index("`at` is a byte of the macro's text")]
        kinds = set(re.findall(r"`([A-Z]\w+)`", table))
        self.assertEqual(len(kinds), 13)
        self.assertLessEqual(kinds, {told.split(" ")[0] for _, told in examples()})


if __name__ == "__main__":
    unittest.main()
