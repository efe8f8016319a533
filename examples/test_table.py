"""The toll house played over TCP: three clients and the built program. Without the program it is skipped.

    python3 -m unittest discover -s examples
"""

import json
import os
import pathlib
import socket
import subprocess
import sys
import time
import unittest

HERE = pathlib.Path(__file__).resolve().parent
EVENING = HERE / "evening"
PROGRAM = os.environ.get("TABLETOP", str(HERE.parent / "crates" / "tabletop" / "out" / "tabletop"))
sys.path.insert(0, str(HERE))

import client  # noqa: E402


class Player(client.Seat):
    """A seat that compares each full line but its first with what the changes before it led to."""

    def __init__(self, number, port):
        self.notes, self.agrees = [], []
        self.connection = connected(port)
        super().__init__(number, self.connection.send, self.notes.append)

    def take_line(self, line):
        if "full" in line and self.view.maps:
            told = client.View.read(line["full"])
            drawn = [client.map_text(view, name) for view in (self.view, told) for name in sorted(view.maps)]
            self.agrees.append(told == self.view and drawn[: len(drawn) // 2] == drawn[len(drawn) // 2 :])
        super().take_line(line)

    def give(self, line):
        """Sends a line and takes in what comes up to its answer."""
        self.put_line(line, {})
        while self.waits is not None and self.ended is None:
            self.connection.receive(self)


def connected(port):
    """A connection, once the program listens."""
    for _ in range(600):
        try:
            connection = client.Connection("127.0.0.1", port)
            connection.socket.settimeout(60)
            return connection
        except OSError:
            time.sleep(0.1)
    raise AssertionError("the program doesn't listen")


def free_port():
    with socket.create_server(("127.0.0.1", 0)) as door:
        return door.getsockname()[1]


@unittest.skipUnless(os.access(PROGRAM, os.X_OK), "the program isn't built")
class Evening(unittest.TestCase):
    def test_three_clients_see_what_a_look_gives(self):
        port = free_port()
        words = [PROGRAM, "serve", str(EVENING / "evening.json"), str(port), "3", "--end"]
        server = subprocess.Popen(words, stdin=subprocess.DEVNULL, stdout=subprocess.PIPE, stderr=subprocess.DEVNULL)
        self.addCleanup(server.stdout.close)
        self.addCleanup(server.kill)
        players = {}
        for raw in (EVENING / "evening.script").read_bytes().splitlines():
            number, _, line = raw.partition(b" ")
            if number not in players:
                players[number] = Player(int(number), port)
            players[number].give(line)
        for number, player in sorted(players.items()):
            player.connection.socket.close()
            self.assertEqual((number, player.agrees, player.ended), (number, [True], "you left the table"))
            self.assertEqual([words for words in player.notes if "refused" in words], [])
        printed = server.stdout.read().decode().splitlines()
        self.assertEqual((printed[:-1], server.wait()), (["1 Left", "2 Left", "3 Left"], 0))
        self.assertEqual(sorted(json.loads(printed[-1])), ["format", "lights", "maps", "seats", "sights", "tokens"])


if __name__ == "__main__":
    unittest.main()
