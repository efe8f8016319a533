"""Runs of the program with a log over files: what it prints, its status, and what stands in the log. Without the built program this is
skipped. The log is read by the format of docs/PROTOCOL.md; bench/kill.sh reads longer ones, of runs that were killed.

    python3 -m unittest examples/test_logs.py
"""

import fcntl
import os
import pathlib
import subprocess
import tempfile
import unittest

HERE = pathlib.Path(__file__).resolve().parent
RUNS = HERE / "runs"
PROGRAM = os.environ.get("TABLETOP", str(HERE.parent / "crates" / "tabletop" / "out" / "tabletop"))
CAMPAIGN = RUNS / "three_seats.json"
# The same as it is written.
WRITTEN = CAMPAIGN.read_text(encoding="utf-8").rstrip("\n").replace('"format":1', '"format":2') + "\n"
USAGE = "tabletop: usage: play FILE --log LOG [--end]\n"
HELLO = '1 {"do":"hello","seat":1,"key":"a"}\n'
JOINED = '1\t{"n":1,"ok":"hello","seat":1,"seats":3}\n1\t{"full":{"lights":{},"maps":[],"sights":{},"tokens":[]}}\n'
# Its records: a Join of seat 1 with the key, and a Taken of its two lines.
JOIN = b"\0\1" + (1).to_bytes(8, "big") * 2 + b"a"
TAKEN = b"\3\1" + (2).to_bytes(8, "big")
LEAVE = b"\2\1\1"


def head(text: bytes) -> bytes:
    return b"TTLOG1" + len(text).to_bytes(4, "big") + text


def record(entry: bytes) -> bytes:
    return b"\1" + len(entry).to_bytes(4, "big") + entry


def log_of(*entries: bytes) -> bytes:
    return head(CAMPAIGN.read_bytes()) + b"".join(map(record, entries)) + b"\0"


@unittest.skipUnless(os.access(PROGRAM, os.X_OK), "the program isn't built")
class Logs(unittest.TestCase):
    def setUp(self):
        folder = tempfile.TemporaryDirectory()
        self.addCleanup(folder.cleanup)
        self.log = pathlib.Path(folder.name) / "evening.log"

    def ran(self, script="", words=None):
        """The status of the program, and what it prints."""
        words = words or ["play", CAMPAIGN, "--log", self.log]
        done = subprocess.run([PROGRAM, *words], input=script.encode(), stdout=subprocess.PIPE, check=False)
        return done.returncode, done.stdout.decode()

    def held(self, script, held):
        """The same where the log holds these bytes."""
        self.log.write_bytes(held)
        return self.ran(script)

    def test_a_new_log_has_the_campaign(self):
        self.assertEqual(self.ran(), (0, ""))
        self.assertEqual(self.log.read_bytes(), log_of())
        self.assertEqual(self.log.stat().st_mode & 0o777, 0o600)

    def test_each_entry_is_there(self):
        self.assertEqual(self.ran(HELLO), (0, JOINED))
        self.assertEqual(self.log.read_bytes(), log_of(JOIN, TAKEN))

    def test_a_second_run_goes_on(self):
        self.ran(HELLO)
        status, printed = self.ran(HELLO)
        self.assertEqual((status, printed), (0, JOINED.replace('"n":1', '"n":2')))
        self.assertEqual(self.log.read_bytes(), log_of(JOIN, TAKEN, LEAVE, JOIN, TAKEN))

    def test_what_stands_behind_a_closed_gate_is_ignored(self):
        self.assertEqual(self.held("", log_of(JOIN, TAKEN) + record(JOIN)), (0, ""))
        self.assertTrue(self.log.read_bytes().startswith(log_of(JOIN, TAKEN, LEAVE)))
        self.assertEqual(self.held("", log_of()[:-1] + b"\x07\1\1"), (0, ""))

    def test_the_campaign_follows(self):
        words = ["play", CAMPAIGN, "--log", self.log, "--end"]
        self.assertEqual(self.ran("", words), (0, WRITTEN))

    def test_other_words(self):
        for words in (["--log"], ["--log", "-a"], ["--log", self.log, "--end", "--end"], ["--log", self.log, "x"]):
            with self.subTest(words=words):
                self.assertEqual(self.ran("", ["play", CAMPAIGN, *words]), (2, USAGE))
        self.assertFalse(self.log.exists())

    def test_no_log(self):
        rest = len(head(CAMPAIGN.read_bytes()))
        for held, place in ((b"TTLOG2", 0), (b"TTLOG1\0\0\0\5text", 0), (log_of()[:-1], rest), (log_of(JOIN)[:-2], rest), (log_of(b"\5\1"), rest)):
            with self.subTest(held=held[-20:]):
                self.assertEqual(self.held(HELLO, held), (11, f"tabletop: bad log at {place}\n"))
                self.assertEqual(self.log.read_bytes(), held)

    def test_another_campaigns_log(self):
        held = head(CAMPAIGN.read_bytes() + b" ") + b"\0"
        self.assertEqual(self.held(HELLO, held), (12, "tabletop: log of another campaign\n"))
        self.assertEqual(self.log.read_bytes(), held)

    def test_disk_faults(self):
        self.assertEqual(self.ran("", ["play", CAMPAIGN, "--log", self.log.parent]), (10, "tabletop: disk fault\n"))
        with open(self.log, "wb") as other:
            fcntl.flock(other, fcntl.LOCK_EX)
            self.assertEqual(self.ran(), (10, "tabletop: disk fault\n"))

    def test_a_campaign_comes_before_its_log(self):
        self.assertEqual(self.ran("", ["play", RUNS / "no_such_file.json", "--log", self.log]), (4, "tabletop: read fault\n"))
        self.assertEqual(self.ran("", ["play", RUNS / "no_members.json", "--log", self.log]), (3, "tabletop: bad campaign at /format: missing\n"))
        self.assertFalse(self.log.exists())


if __name__ == "__main__":
    unittest.main()
