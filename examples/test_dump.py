"""A campaign that was played, dumped and opened again goes on as it was. Without the built program this is skipped.

    python3 -m unittest examples/test_dump.py
"""

import json
import os
import pathlib
import subprocess
import tempfile
import unittest

HERE = pathlib.Path(__file__).resolve().parent
PROGRAM = os.environ.get("TABLETOP", str(HERE.parent / "crates" / "tabletop" / "out" / "tabletop"))
# An evening, the script that plays its first part, and what its seats do when it goes on.
EVENINGS = [(HERE / "cave.json", HERE / "cave.script"), (HERE / "evening" / "evening.json", HERE / "evening" / "evening.script")]
GOES_ON = [(seat, {"dice": "3d6+1d20", "do": "roll", "to": "self"}) for seat in (0, 1, 2)] + [(0, {"do": "say", "text": "on we go"})]


def played(campaign, lines, *words):
    """What each line of these, as pairs of a seat and a line, makes the seats be sent: pairs of a seat and a line's value."""
    script = "".join(f"{seat} {json.dumps(line)}\n" for seat, line in lines)
    with tempfile.TemporaryDirectory() as folder:
        file = pathlib.Path(folder) / "campaign.json"
        file.write_text(campaign, encoding="utf-8")
        ran = subprocess.run([PROGRAM, "play", str(file), *words], input=script.encode(), capture_output=True, check=True, timeout=60)
    parts = [line.split("\t") for line in ran.stdout.decode().splitlines()]
    return [(int(seat), json.loads(line)) for seat, line in (part for part in parts if len(part) == 2)], ran.stdout.decode()


def lines_of(script):
    return [(int(seat), json.loads(line)) for seat, _, line in (raw.partition(" ") for raw in script.splitlines())]


def hellos(campaign):
    """A hello of each seat."""
    return [(seat, {"do": "hello", "key": found["key"], "seat": seat}) for seat, found in enumerate(json.loads(campaign)["seats"])]


def byes(campaign):
    return [(seat, {"do": "bye"}) for seat, _ in enumerate(json.loads(campaign)["seats"])]


def views_and_words(sent):
    """The whole views and the messages, in order: what doesn't count a seat's lines."""
    return [(seat, line) for seat, line in sent if "full" in line or "text" in line]


@unittest.skipUnless(os.access(PROGRAM, os.X_OK), "the program isn't built")
class Dumps(unittest.TestCase):
    def test_a_dumped_campaign_goes_on(self):
        for file, script in EVENINGS:
            with self.subTest(evening=file.name):
                campaign = file.read_text(encoding="utf-8")
                # (who sits at the table leaves it, so that everybody's hello is taken)
                first = [*lines_of(script.read_text(encoding="utf-8")), *byes(campaign), *hellos(campaign)]
                sent, _ = played(campaign, [*first, (0, {"do": "dump"})])
                dump = next(line["dump"] for _, line in reversed(sent) if "dump" in line)
                text = json.dumps(dump, separators=(",", ":"), sort_keys=True, ensure_ascii=False)
                begun = len(played(campaign, first[: -len(hellos(campaign))])[0])
                whole, _ = played(campaign, [*first, *GOES_ON])
                again, _ = played(text, [*hellos(text), *GOES_ON])
                self.assertEqual(views_and_words(again), views_and_words(whole[begun:]))

    def test_the_campaign_at_the_end_is_the_dump(self):
        for file, script in EVENINGS:
            with self.subTest(evening=file.name):
                campaign = file.read_text(encoding="utf-8")
                first = [*lines_of(script.read_text(encoding="utf-8")), *byes(campaign), *hellos(campaign)[:1], (0, {"do": "dump"})]
                sent, out = played(campaign, first, "--end")
                dump = next(line["dump"] for _, line in reversed(sent) if "dump" in line)
                last = out.splitlines()[-1]
                self.assertEqual(json.loads(last), dump)
                # It is canonical: written again, it is the same.
                self.assertEqual(played(last, [], "--end")[1], last + "\n")


if __name__ == "__main__":
    unittest.main()
