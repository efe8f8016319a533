"""A client has a minute for its first whole line, and then as long as it likes; so this takes a minute. Without the built program it is
skipped.

    cd examples && python3 -m unittest test_silence
"""

import os
import pathlib
import subprocess
import tempfile
import time
import unittest

from test_serve import BYE, FULL, PROGRAM, TEXT, hello, written
from test_table import connected, free_port

# Seconds that a client has, and as many more as a slow machine may take.
MINUTE, MORE = 60, 30


@unittest.skipUnless(os.access(PROGRAM, os.X_OK), "the program isn't built")
class Silence(unittest.TestCase):
    def test_a_first_line_has_a_minute(self):
        folder = tempfile.TemporaryDirectory()
        self.addCleanup(folder.cleanup)
        file = pathlib.Path(folder.name) / "table.json"
        file.write_text(TEXT, encoding="utf-8")
        port = free_port()
        words = [PROGRAM, "serve", str(file), str(port), "2"]
        server = subprocess.Popen(words, stdin=subprocess.DEVNULL, stdout=subprocess.PIPE, stderr=subprocess.DEVNULL)
        self.addCleanup(server.stdout.close)
        self.addCleanup(server.kill)
        with connected(port).socket as silent, connected(port).socket as seated, seated.makefile("rb") as answers:
            begun = time.monotonic()
            silent.sendall(b'{"do":')
            seated.sendall(written(hello("a")))
            self.assertEqual([answers.readline(), answers.readline()], [b'{"n":1,"ok":"hello","seat":1,"seats":3}\n', FULL])
            silent.settimeout(MINUTE + MORE)
            self.assertEqual(silent.recv(64), b"")
            self.assertGreater(time.monotonic() - begun, MINUTE - 1)
            seated.sendall(written(BYE))
            self.assertEqual(answers.readlines(), [b'{"n":2,"ok":"bye"}\n'])
        self.assertEqual((server.stdout.read().decode(), server.wait(timeout=60)), ("1 ReadFault\n2 Left\n", 0))


if __name__ == "__main__":
    unittest.main()
