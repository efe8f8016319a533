"""Was everything told? What docs/GUIDE.md says of it, over the log of an evening that was served, by the built program. Without it this is skipped.

    cd examples && python3 -m unittest test_verify
"""

import os
import pathlib
import re
import shutil
import subprocess
import tempfile
import unittest

from test_table import EVENING, HERE, PROGRAM, Player, free_port

GUIDE = HERE.parent / "docs" / "GUIDE.md"


def commands():
    """The commands of the guide's page, and what each is to print."""
    part = GUIDE.read_text(encoding="utf-8").partition("## Was everything told?")[2].partition("## ")[0]
    return [(command.strip(), wanted) for command, _, wanted in re.findall(r"^    (.*?)(  # (.*))?$", part, re.M)]


@unittest.skipUnless(os.access(PROGRAM, os.X_OK), "the program isn't built")
class Verdicts(unittest.TestCase):
    def setUp(self):
        folder = tempfile.TemporaryDirectory()
        self.addCleanup(folder.cleanup)
        self.folder = pathlib.Path(folder.name)
        (self.folder / "tabletop").symlink_to(pathlib.Path(PROGRAM).resolve())
        for name in ("evening.json", "evening.script"):
            shutil.copy(EVENING / name, self.folder)

    def play(self, names):
        """Plays the evening over connections. Each of these seats keeps a log by this name."""
        port = free_port()
        words = [PROGRAM, "serve", str(EVENING / "evening.json"), str(port), "3"]
        server = subprocess.Popen(words, stdin=subprocess.DEVNULL, stdout=subprocess.DEVNULL, stderr=subprocess.DEVNULL)
        self.addCleanup(server.kill)
        players = {}
        for raw in (EVENING / "evening.script").read_bytes().splitlines():
            number, _, line = raw.partition(b" ")
            if number not in players:
                players[number] = Player(int(number), port)
                if number in names:
                    log = players[number].log = open(self.folder / names[number], "wb", buffering=0)
                    self.addCleanup(log.close)
            players[number].give(line)
        for player in players.values():
            player.connection.socket.close()
        self.assertEqual(server.wait(60), 0)

    def verdict(self, log, seat):
        """The status and what is printed of a log."""
        words = [PROGRAM, "verify", "evening.json", "evening.script", str(seat), log]
        done = subprocess.run(words, stdin=subprocess.DEVNULL, capture_output=True, cwd=self.folder, timeout=60)
        return done.returncode, done.stdout.decode()

    def test_the_guides_page(self):
        self.play({b"1": "mara.log", b"2": "brok.log"})
        self.assertEqual(len(commands()), 4)
        for command, wanted in commands():
            with self.subTest(command):
                done = subprocess.run(command, shell=True, stdin=subprocess.DEVNULL, capture_output=True, cwd=self.folder, timeout=60)
                self.assertEqual(done.stdout.decode().strip(), wanted)
        self.assertEqual(self.verdict("brok.log", 2), (0, "equal\n"))
        log = (self.folder / "mara.log").read_bytes()
        lines = log.splitlines(keepends=True)
        front = len(b"".join(lines[:9]))
        spoiled = {"held": (lines[:9] + lines[10:], front + 2), "slipped": (lines[:9] + [b"{}\n"] + lines[9:], front + 1), "cut": (lines[:9], front)}
        for name, (kept, place) in spoiled.items():
            with self.subTest(name):
                (self.folder / name).write_bytes(b"".join(kept))
                self.assertEqual(self.verdict(name, 1), (14, f"differs at {place}\n"))


if __name__ == "__main__":
    unittest.main()
