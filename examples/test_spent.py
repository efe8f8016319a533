"""Seats that have sent as many lines as a seat may: in a play and over TCP. Without the built program this is skipped.

    python3 -m unittest examples/test_spent.py
"""

import json
import os
import pathlib
import socket
import subprocess
import sys
import tempfile
import threading
import unittest

HERE = pathlib.Path(__file__).resolve().parent
PROGRAM = os.environ.get("TABLETOP", str(HERE.parent / "crates" / "tabletop" / "out" / "tabletop"))
sys.path.insert(0, str(HERE))

from test_table import connected, free_port  # noqa: E402

# How many lines a seat may send, its hellos among them.
MOST = 16384
HELLO = {"do": "hello", "key": "a", "seat": 1}
SAY = {"do": "say", "text": "x", "to": "self"}
SPENT = {"n": 0, "no": 26, "refused": "Spent"}


def seat(key):
    return {"drawn": 0, "fog": {}, "key": key, "macros": {}, "seed": "0" * 64, "tags": []}


CAMPAIGN = {"format": 1, "lights": {}, "maps": [], "seats": [seat("g"), seat("a")], "sights": {}, "tokens": []}


def last_two(lines):
    return [json.loads(line) for line in lines[-2:]]


@unittest.skipUnless(os.access(PROGRAM, os.X_OK), "the program isn't built")
class SpentSeats(unittest.TestCase):
    def setUp(self):
        folder = tempfile.TemporaryDirectory()
        self.addCleanup(folder.cleanup)
        self.file = pathlib.Path(folder.name) / "campaign.json"
        self.file.write_text(json.dumps(CAMPAIGN), encoding="utf-8")

    def test_a_play(self):
        script = [HELLO, *[SAY] * (MOST - 1), HELLO]
        text = "".join(f"1 {json.dumps(line)}\n" for line in script).encode()
        ran = subprocess.run([PROGRAM, "play", str(self.file)], input=text, capture_output=True, timeout=120)
        lines = [line.partition("\t")[2] for line in ran.stdout.decode().splitlines()]
        # The last line that counts is still answered and its message comes; then no hello opens the seat again.
        self.assertEqual(last_two(lines[:-1]), [{"n": MOST, "ok": "say"}, {"from": 1, "text": "x", "to": "self"}])
        self.assertEqual((json.loads(lines[-1]), ran.returncode), (SPENT, 0))

    def test_a_session(self):
        port = free_port()
        server = subprocess.Popen([PROGRAM, "serve", str(self.file), str(port), "2"], stdin=subprocess.DEVNULL, stdout=subprocess.PIPE, stderr=subprocess.DEVNULL)
        self.addCleanup(server.stdout.close)
        self.addCleanup(server.kill)
        # The hello's reply and full line, and a reply and a message for each line behind it.
        lines = self.sent_to(connected(port).socket, [HELLO, *[SAY] * (MOST - 1)], 2 * MOST)
        self.assertEqual(last_two(lines), [{"n": MOST, "ok": "say"}, {"from": 1, "text": "x", "to": "self"}])
        self.assertEqual([json.loads(line) for line in self.sent_to(connected(port).socket, [HELLO], 1)], [SPENT])
        self.assertEqual((server.stdout.read().decode().splitlines(), server.wait()), (["1 Spent", "2 Refused Spent"], 0))

    @staticmethod
    def sent_to(connection, lines, count):
        """The first so many lines that the connection is sent while it sends these lines."""

        def send():
            connection.sendall("".join(f"{json.dumps(line)}\n" for line in lines).encode())

        connection.settimeout(120)
        sending = threading.Thread(target=send)
        sending.start()
        with connection, socket.socket.makefile(connection, "rb") as answers:
            found = [answers.readline() for _ in range(count)]
            sending.join()
        return found


if __name__ == "__main__":
    unittest.main()
