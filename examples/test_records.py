"""Logs that the program didn't write: records that are no entries, each with its place, and one that it takes. Without the built program
this is skipped.

    cd examples && python3 -m unittest test_records
"""

import os
import pathlib
import subprocess
import tempfile
import unittest

from test_logs import CAMPAIGN, JOIN, LEAVE, PROGRAM, TAKEN, head, log_of, record

# Where the first record of a log stands, and how long that of a Cut is.
FIRST = len(head(CAMPAIGN.read_bytes()))
CUT = b"\4\1"
LONG = len(record(CUT))

# What a log holds, and the place at which it is bad.
BAD = [
    (b"TTLOG1\1\0\0\1text", 0),
    (b"TTLOG1\0\0", 0),
    (log_of(CUT)[:-1], FIRST + LONG),
    (log_of(CUT)[:-2], FIRST),
    (log_of(b"\4\x21"), FIRST),
    (log_of(CUT, b"\4\1\0"), FIRST + LONG),
    (log_of(CUT, b"\4"), FIRST + LONG),
    (log_of(CUT, b"\2\1\2"), FIRST + LONG),
    (log_of(CUT, b"\3\1\0"), FIRST + LONG),
]


@unittest.skipUnless(os.access(PROGRAM, os.X_OK), "the program isn't built")
class Records(unittest.TestCase):
    def setUp(self):
        folder = tempfile.TemporaryDirectory()
        self.addCleanup(folder.cleanup)
        self.log = pathlib.Path(folder.name) / "evening.log"

    def held(self, bytes_held):
        self.log.write_bytes(bytes_held)
        done = subprocess.run([PROGRAM, "play", CAMPAIGN, "--log", self.log], stdin=subprocess.DEVNULL, stdout=subprocess.PIPE, check=False)
        return done.returncode, done.stdout.decode()

    def test_bad_records(self):
        for held, place in BAD:
            with self.subTest(held=held[-20:]):
                self.assertEqual(self.held(held), (11, f"tabletop: bad log at {place}\n"))
                self.assertEqual(self.log.read_bytes(), held)

    def test_a_cut_frees_its_seat(self):
        # Nobody leaves behind a Cut, and one that sat down since does.
        for entries, leaves in ((JOIN, TAKEN, CUT), ()), ((JOIN, CUT, JOIN, TAKEN), (LEAVE,)):
            self.assertEqual(self.held(log_of(*entries)), (0, ""))
            self.assertEqual(self.log.read_bytes(), log_of(*entries, *leaves))


if __name__ == "__main__":
    unittest.main()
