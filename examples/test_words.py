"""Words that are those of a form, and words that are none. Without the built program this is skipped.

    cd examples && python3 -m unittest test_words
"""

import os
import pathlib
import tempfile
import unittest

from test_logs import USAGE as LOG_USAGE
from test_runs import PROGRAM, USAGE, ran

# Words of no form, parted by spaces.
NONE = [
    "verify a b 0 c",
    "verify a b 33 c",
    "verify a b 1 -c",
    "verify a b 1",
    "compare a b c d 01",
    "compare a b c d 1 e",
    "",
    "play",
    "play -a",
    "play -- a",
    "-- play a",
    "--end play a",
    "play --end --end a",
    "play a b",
    "play a --en",
    "play a --end=true",
    "--help",
    "help play",
    "pla a",
    "check a --end",
    "drill 7",
    "drill 7 4",
    "drill 7 10001",
    "drill 4294967296 5",
    "drill 07 5",
    "drill 7 5 --end",
    "serve a 0 1",
    "serve a 80 1025",
]
# Words of none, some of which are nearly those of a play with a log.
NO_LOG = [
    "play a --log",
    "play a --log -b",
    "play -a --log b",
    "play --log b a",
    "play a --end --log b",
    "play a --log --end",
    "play a --log=b",
    "play a --log b --end --end",
    "check a --log b",
]
# Words of a form, with files that are not there.
FORMS = [
    "verify a b 32 c",
    "compare a b c d 1",
    "play a",
    "play --end a",
    "play play --end",
    "check help",
    "serve a 1 1",
    "serve a --end 65535 1024",
    "play a --log b",
    "play a --log b --end",
    "play play --log log",
]


@unittest.skipUnless(os.access(PROGRAM, os.X_OK), "the program isn't built")
class Words(unittest.TestCase):
    def setUp(self):
        folder = tempfile.TemporaryDirectory()
        self.addCleanup(folder.cleanup)
        self.folder = pathlib.Path(folder.name)

    def ran(self, words):
        return ran(words.split(" ") if words else [], folder=self.folder)

    def test_words_of_no_form(self):
        for words in [*NONE, *NO_LOG]:
            with self.subTest(words):
                parts = words.split()
                usage = LOG_USAGE if parts[:1] == ["play"] and parts[2:3] == ["--log"] else USAGE
                self.assertEqual(self.ran(words), (2, usage))

    def test_words_of_a_form(self):
        for words in FORMS:
            with self.subTest(words):
                self.assertEqual(self.ran(words), (4, "tabletop: read fault\n"))

    def test_drills(self):
        for number, lines in ("0", "5"), ("4294967295", "10000"):
            with self.subTest(number):
                status, line = self.ran(f"drill {number} {lines}")
                self.assertEqual((status, line.startswith(f"drill {number}: lines {lines}, ")), (0, True), line)


if __name__ == "__main__":
    unittest.main()
