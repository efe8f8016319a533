"""Scripts that end at each byte, a check that can't be read or written, and a campaign of 33 seats that all sit down at one hall. Without the
built program this is skipped.

    cd examples && python3 -m unittest test_ends
"""

import json
import os
import pathlib
import subprocess
import tempfile
import unittest

from test_runs import PROGRAM, RUNS, ran, seat
from test_serve import BYE, written
from test_table import connected, free_port

SCRIPT = """\
1 {"do":"hello","seat":1,"key":"a"}
1 {"do":"say","text":"hi"}
1 {"do":"look"}
1 {"do":"bye"}
"""

SEATS = 33


def full_line(lights):
    return f'{{"full":{{"lights":{lights},"maps":[],"sights":{{}},"tokens":[]}}}}'


# What the first two seats say behind their hellos, and what they are sent.
MASTERS = [
    ({"do": "lighttype", "name": "torch", "radius": 3}, ['{"n":2,"ok":"lighttype"}', '{"change":{"lights":{"torch":3}}}']),
    (BYE, ['{"n":3,"ok":"bye"}']),
]
ANNAS = [
    ({"do": "roll", "dice": "1d20", "to": "self"}, ['{"n":2,"ok":"roll"}', '{"from":1,"text":"1d20 = 14","to":"self"}']),
    ({"do": "setmacro", "name": "hit", "text": "[r: 1d20] hits"}, ['{"n":3,"ok":"setmacro"}']),
    ({"do": "macro", "name": "hit", "to": "all"}, ['{"n":4,"ok":"macro"}', '{"from":1,"text":"12 hits","to":"all"}']),
    (BYE, ['{"n":5,"ok":"bye"}']),
]
OTHERS = [(BYE, ['{"n":2,"ok":"bye"}'])]


@unittest.skipUnless(os.access(PROGRAM, os.X_OK), "the program isn't built")
class Ends(unittest.TestCase):
    def setUp(self):
        folder = tempfile.TemporaryDirectory()
        self.addCleanup(folder.cleanup)
        self.file = pathlib.Path(folder.name) / "table.json"

    def test_a_script_ends_at_each_byte(self):
        """Its whole lines are answered as ever, and what stands behind them as a line of its own."""
        words = ["play", "three_seats.json"]
        _, whole = ran(words, SCRIPT)
        self.assertEqual(len(whole.splitlines()), 7)
        for end in range(len(SCRIPT) + 1):
            front = SCRIPT[:end]
            lines, _, rest = front.rpartition("\n")
            with self.subTest(end):
                _, answered = ran(words, lines)
                status, printed = ran(words, front)
                self.assertTrue(whole.startswith(answered))
                self.assertTrue(printed.startswith(answered))
                if rest:
                    self.assertEqual((status, printed), ran(words, front + "\n"))
                else:
                    self.assertEqual((status, printed), (0, answered))

    def test_a_check_stops_at_a_fault(self):
        self.assertEqual(ran(["check", "no_such_file.json"]), (4, "tabletop: read fault\n"))
        with open("/dev/full", "wb") as full:
            done = subprocess.run([PROGRAM, "check", "three_seats.json"], stdin=subprocess.DEVNULL, stdout=full, cwd=RUNS, timeout=60)
        self.assertEqual(done.returncode, 5)

    def test_thirty_three_seats_share_one_hall(self):
        campaign = {"format": 1, "lights": {}, "maps": [], "seats": [seat("k", {}, [])] * SEATS, "sights": {}, "tokens": []}
        self.file.write_text(json.dumps(campaign), encoding="utf-8")
        port = free_port()
        words = [PROGRAM, "serve", str(self.file), str(port), str(SEATS)]
        server = subprocess.Popen(words, stdin=subprocess.DEVNULL, stdout=subprocess.PIPE, stderr=subprocess.DEVNULL)
        self.addCleanup(server.stdout.close)
        self.addCleanup(server.kill)
        for number in range(SEATS):
            said = [MASTERS, ANNAS, *[OTHERS] * (SEATS - 2)][number]
            joined = f'{{"n":1,"ok":"hello","seat":{number},"seats":{SEATS}}}'
            wanted = [joined, full_line('{"torch":3}' if number else "{}")] + [line for _, lines in said for line in lines]
            with self.subTest(number), connected(port).socket as connection, connection.makefile("r", encoding="utf-8") as answers:
                connection.sendall(written({"do": "hello", "key": "k", "seat": number}, *(line for line, _ in said)))
                self.assertEqual(answers.read().splitlines(), wanted)
        told = "".join(f"{number} Left\n" for number in range(1, SEATS + 1))
        self.assertEqual((server.stdout.read().decode(), server.wait(timeout=60)), (told, 0))


if __name__ == "__main__":
    unittest.main()
