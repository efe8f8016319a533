"""What each run of runs/ sends a player is what the player machine prints: the program verifies its own lines. Without the built program
this is skipped.

    cd examples && python3 -m unittest test_transcripts
"""

import os
import pathlib
import shutil
import tempfile
import unittest

from test_runs import PROGRAM, RUNS, ran, runs_of, tabbed

# A player who is refused at first, sits down, moves, rolls, is refused again, leaves and comes back.
EVENING = """\
1 {"do":"hello","key":"x","seat":1}
1 {"do":"look"}
1 {"do":"hello","key":"a","seat":1}
0 {"do":"hello","key":"g","seat":0}
1 {"do":"move","token":"1:ann","path":[[0,1],[0,2]]}
0 {"do":"say","text":"Dusk."}
0 {"do":"mode","map":"cave","mode":"night"}
1 {"do":"roll","dice":"1d20","to":"self"}
1 {"do":"light","token":"1:orc","light":null}
1 {"do":"look"}
1 {"do":"roll","dice":"1d20","to":"gm"}
1 {"do":"bye"}
1 {"do":"look"}
0 {"do":"mode","map":"cave","mode":"day"}
1 {"do":"hello","key":"a","seat":1}
1 {"do":"hello","key":"a","seat":1}
"""


@unittest.skipUnless(os.access(PROGRAM, os.X_OK), "the program isn't built")
class Transcripts(unittest.TestCase):
    def setUp(self):
        folder = tempfile.TemporaryDirectory()
        self.addCleanup(folder.cleanup)
        self.folder = pathlib.Path(folder.name)
        shutil.copytree(RUNS, self.folder, dirs_exist_ok=True)

    def verify(self, campaign, script, output):
        (self.folder / "played.script").write_text(script, encoding="utf-8")
        for number in range(1, 4):
            lines = [line.partition("\t")[2] for line in output.splitlines(keepends=True) if line.startswith(f"{number}\t")]
            (self.folder / "sent").write_text("".join(lines), encoding="utf-8")
            verdict = ran(["verify", campaign, "played.script", str(number), "sent"], folder=self.folder)
            self.assertEqual(verdict, (0, "equal\n"), number)

    def test_each_run(self):
        for name in "plays.txt", "trails.txt", "macros.txt":
            for run in runs_of(name):
                if run.words[0] == "play" and run.status == 0:
                    with self.subTest(run.name):
                        self.verify(run.words[1], run.script, tabbed(run.output))

    def test_an_evening(self):
        status, output = ran(["play", "cave.json"], EVENING, self.folder)
        self.assertEqual((status, '"text":"1d20 = 14"' in output), (0, True), output)
        self.verify("cave.json", EVENING, output)


if __name__ == "__main__":
    unittest.main()
