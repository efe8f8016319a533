"""Connections that are served in one hall over TCP: what each is sent, what is printed, and the status. Without the built program this
is skipped.

    python3 -m unittest examples/test_serve.py
"""

import json
import os
import pathlib
import resource
import socket
import subprocess
import sys
import tempfile
import threading
import time
import unittest

HERE = pathlib.Path(__file__).resolve().parent
PROGRAM = os.environ.get("TABLETOP", str(HERE.parent / "crates" / "tabletop" / "out" / "tabletop"))
sys.path.insert(0, str(HERE))

from test_runs import USAGE  # noqa: E402
from test_table import connected, free_port  # noqa: E402

# Seconds, within which a session that is over ends its client's stream.
MOMENT = 1.0
FULL = b'{"full":{"lights":{},"maps":[],"sights":{},"tokens":[]}}\n'


def seat(key):
    return {"drawn": 0, "fog": {}, "key": key, "macros": {}, "seed": "0" * 64, "tags": []}


# In the order of a campaign that the program writes.
CAMPAIGN = {"format": 1, "lights": {}, "maps": [], "seats": [seat("g"), seat("a"), seat("b")], "sights": {}, "tokens": []}
TEXT = json.dumps(CAMPAIGN, separators=(",", ":"))
WRITTEN = json.dumps(CAMPAIGN | {"format": 2}, separators=(",", ":"))


def hello(key):
    return {"do": "hello", "key": key, "seat": 1}


MASTER = {"do": "hello", "key": "g", "seat": 0}
BYE = {"do": "bye"}

# Its full line has more than 150,000 bytes, and 32 of them more than may wait for a seat.
PROPERTIES = [[f"p{number}", "x" * 200] for number in range(64)]
HEAVY = CAMPAIGN | {
    "maps": [{"h": 1, "mbl": [], "mode": "day", "name": "hall", "rows": ["."], "shown": True, "vbl": [], "w": 1}],
    "seats": [seat("g") | {"tags": ["a", "b", "c", "d"]}, seat("a")],
    "tokens": [{"cell": [0, 0], "id": f"0:{tag}", "layer": "token", "light": None, "map": "hall", "name": "n", "own": PROPERTIES, "owners": [1],
                "props": PROPERTIES, "secret": PROPERTIES, "sight": None, "size": 1, "visible": True} for tag in "abcd"],
}
# So many lines are a flood.
FLOOD = 4_000


# What each connection sends, and the lines that it is sent. The number of the last shows that all share one hall.
CONNECTIONS = [
    ([hello("a"), {"do": "bye"}], [b'{"n":1,"ok":"hello","seat":1,"seats":3}\n', FULL, b'{"n":2,"ok":"bye"}\n']),
    ([hello("x")], [b'{"n":0,"no":24,"refused":"BadKey"}\n']),
    ([hello("a")], [b'{"n":3,"ok":"hello","seat":1,"seats":3}\n', FULL]),
]


def written(*lines):
    return "".join(f"{json.dumps(line)}\n" for line in lines).encode()


# What a connection sends, the last line that it is sent before the end of its stream, and its word.
ENDINGS = [
    ([written(hello("a"), {"do": "bye"}), b"behind the bye"], b'{"n":2,"ok":"bye"}\n', "Left"),
    ([written({"do": "look"}), b"behind it\n"], b'{"n":0,"no":27,"refused":"NoHello"}\n', "Refused NoHello"),
    ([b"x" * 4097], b"", "TooLong"),
    ([written(hello("a")), b"x" * 50_000], FULL, "TooLong"),
]
# A server with so many serves more connections.
DESCRIPTORS = 24


def last_line(connection):
    """What stands last before the end of its stream."""
    with connection.makefile("rb") as answers:
        lines = answers.readlines()
    return lines[-1] if lines else b""

# What the host is told of these connections.
NOTES = [
    "connection 1 opened",
    "connection 1 sat down at seat 1",
    "connection 1 Left",
    "connection 2 opened",
    "connection 2 Refused BadKey",
    "connection 3 opened",
    "connection 3 sat down at seat 1",
    "connection 3 Left",
]


@unittest.skipUnless(os.access(PROGRAM, os.X_OK), "the program isn't built")
class Connections(unittest.TestCase):
    def setUp(self):
        folder = tempfile.TemporaryDirectory()
        self.addCleanup(folder.cleanup)
        self.file = pathlib.Path(folder.name) / "table.json"
        self.file.write_text(TEXT, encoding="utf-8")
        self.notes = self.file.with_name("notes")

    def test_three_connections_one_after_another(self):
        for words, ending in ((), ""), (("--end",), WRITTEN + "\n"):
            with self.subTest(words=words):
                server, port = self.started("3", *words)
                for lines, wanted in CONNECTIONS:
                    self.assertEqual(self.sat(port, lines), wanted)
                self.assertEqual(self.ended(server), ("1 Left\n2 Refused BadKey\n3 Left\n" + ending, 0))
                # A session is noted as over behind the end of its stream, when the next may have begun.
                notes = sorted(self.notes.read_text(encoding="ascii").splitlines(), key=lambda line: line.split()[1])
                self.assertEqual(notes, NOTES)

    def test_words_that_are_none(self):
        for count in "0", "1025", "03":
            with self.subTest(count=count):
                server, _ = self.started(count)
                self.assertEqual(self.ended(server), (USAGE, 2))

    def test_a_campaign_that_is_none(self):
        self.file.write_text(TEXT.replace('"format":1', '"format":3'), encoding="utf-8")
        server, _ = self.started("3")
        self.assertEqual(self.ended(server), ("tabletop: bad campaign at /format: range\n", 3))

    def test_a_file_that_is_not_there(self):
        self.file.unlink()
        server, _ = self.started("3")
        self.assertEqual(self.ended(server), ("tabletop: read fault\n", 4))

    def test_a_port_that_is_taken(self):
        with socket.create_server(("127.0.0.1", 0)) as door:
            server = self.started_at(door.getsockname()[1], "3")
            self.assertEqual(self.ended(server), ("tabletop: door fault\n", 9))

    def test_an_output_that_takes_nothing(self):
        port = free_port()
        words = [PROGRAM, "serve", str(self.file), str(port), "1"]
        with open("/dev/full", "wb") as full:
            server = subprocess.Popen(words, stdin=subprocess.DEVNULL, stdout=full, stderr=subprocess.DEVNULL)
            self.addCleanup(server.kill)
            self.sat(port, [hello("a")])
            self.assertEqual(server.wait(timeout=60), 5)

    def test_whose_session_is_over_sees_the_end(self):
        server, port = self.started(str(len(ENDINGS)))
        for lines, last, _ in ENDINGS:
            with self.subTest(lines=lines[-1][:40]), connected(port).socket as connection:
                connection.sendall(b"".join(lines))
                begun = time.monotonic()
                self.assertEqual(last_line(connection), last)
                self.assertLess(time.monotonic() - begun, MOMENT)
                # The client hasn't closed its connection, and may still send.
                connection.sendall(b"more")
        told = "".join(f"{number} {word}\n" for number, (_, _, word) in enumerate(ENDINGS, 1))
        self.assertEqual(self.ended(server), (told, 0))

    def test_looks_in_one_packet(self):
        self.file.write_text(json.dumps(HEAVY), encoding="utf-8")
        server, port = self.started("1")
        lines = self.sat(port, [MASTER, *[{"do": "look"}] * 32, BYE])
        self.assertEqual((len(lines), lines[-1]), (67, b'{"n":34,"ok":"bye"}\n'))
        self.assertEqual(self.ended(server), ("1 Left\n", 0))

    def test_a_line_has_its_turn_among_a_flood(self):
        server, port = self.started("2")
        message = {"do": "say", "text": "x", "to": "self"}
        with connected(port).socket as master, connected(port).socket as anna, master.makefile("rb") as masters, anna.makefile("rb") as annas:
            anna.sendall(written(hello("a")))
            self.assertEqual([annas.readline(), annas.readline()], [b'{"n":1,"ok":"hello","seat":1,"seats":3}\n', FULL])
            sending = threading.Thread(target=master.sendall, args=(written(MASTER, *[message] * FLOOD, BYE),))
            sending.start()
            for _ in range(10):
                masters.readline()
            anna.sendall(written(message | {"to": 0}))
            # Once its bye is told the master's seat is Free, and is told nothing more.
            lines = masters.readlines()
            sending.join()
            anna.shutdown(socket.SHUT_WR)
            annas.readlines()
        self.assertIn(b'{"from":1,"text":"x","to":0}\n', lines)
        self.assertEqual(lines[-1], f'{{"n":{FLOOD + 2},"ok":"bye"}}\n'.encode())
        self.assertEqual(self.ended(server), ("1 Left\n2 Left\n", 0))

    def test_more_connections_than_descriptors(self):
        server, port = self.started(str(2 * DESCRIPTORS), descriptors=DESCRIPTORS)
        connected(port).socket.close()
        # More than there are descriptors are open at once, and then the rest come and go.
        opened = [connected(port).socket for _ in range(DESCRIPTORS)]
        for connection in opened:
            connection.close()
        for _ in range(DESCRIPTORS - 1):
            self.assertEqual(self.sat(port, [hello("x")]), CONNECTIONS[1][1])
        words, status = self.ended(server)
        told = words.splitlines()
        left = 1 + DESCRIPTORS
        self.assertEqual(told, [f"{number} Left" for number in range(1, left + 1)] + [f"{number} Refused BadKey" for number in range(left + 1, 2 * DESCRIPTORS + 1)])
        self.assertEqual(status, 0)

    def started(self, *words, descriptors=None):
        port = free_port()
        return self.started_at(port, *words, descriptors=descriptors), port

    def started_at(self, port, *words, descriptors=None):
        limit = None if descriptors is None else lambda: resource.setrlimit(resource.RLIMIT_NOFILE, (descriptors, descriptors))
        words = [PROGRAM, "serve", str(self.file), str(port), *words]
        with open(self.notes, "wb") as notes:
            server = subprocess.Popen(words, stdin=subprocess.DEVNULL, stdout=subprocess.PIPE, stderr=notes, preexec_fn=limit)
        self.addCleanup(server.stdout.close)
        self.addCleanup(server.kill)
        return server

    @staticmethod
    def ended(server):
        return server.stdout.read().decode(), server.wait(timeout=60)

    @staticmethod
    def sat(port, lines):
        """What a connection is sent that sends these lines and nothing more, up to the end of the stream: its session is over then."""
        with connected(port).socket as connection, connection.makefile("rb") as answers:
            connection.sendall(written(*lines))
            connection.shutdown(socket.SHUT_WR)
            return answers.readlines()


if __name__ == "__main__":
    unittest.main()
