"""The second half of bench/kill.sh: evenings that are served with a log, and whose server is killed. A game master and four players say, roll,
walk and shut doors over TCP, each by lines drawn at random, some of them sent at once.

    python3 bench/kill_serve.py PROGRAM [KILLS]
"""

import collections
import contextlib
import json
import os
import pathlib
import random
import re
import shutil
import socket
import subprocess
import sys
import tempfile
import threading
import time

from kill_log import FAULTS, JOIN, LINE, TAKEN, entries_of, fault, leaves_of

PROGRAM, KILLS = sys.argv[1], int(sys.argv[2]) if len(sys.argv) > 2 else 100
SEED = os.environ.get("SEED", "1")
SEATS, COUNT = 5, 7
# So often each client sends some lines at once, behind its hello.
BURSTS = 25
# Seconds after which a connection that gets nothing more, and doesn't end, is held up.
PATIENCE = 60
WIDTH, HEIGHT = 24, 12
DOOR = {"map": "cave", "kind": "vbl", "a": [24, 10], "b": [24, 14]}
WORDS = ("where?", "I go on", "quietly", "a door, here", "näher", "what was that?")


# ---- the campaign


def token(seat, tag, cell, **fields):
    plain = {"cell": cell, "id": f"{seat}:{tag}", "layer": "token", "light": None, "map": "cave", "name": tag, "own": [], "owners": [], "props": [],
             "secret": [], "sight": None, "size": 1, "visible": True}
    return plain | fields


def campaign():
    """A cave in two halves, with a door between them; each player has one token in the left one, and a goblin stands in the right one."""
    walls = [[24, 0, 24, 10], [24, 10, 24, 14], [24, 14, 24, 24]]
    cave = {"h": HEIGHT, "mbl": walls, "mode": "day", "name": "cave", "rows": ["." * WIDTH] * HEIGHT, "shown": True, "vbl": walls, "w": WIDTH}
    seats = [{"drawn": 0, "fog": {}, "key": f"key-{seat}", "macros": {}, "seed": f"{seat + 1:064x}", "tags": ["t"] if seat else ["goblin"]}
             for seat in range(SEATS)]
    tokens = [token(seat, "t", [2 * seat, 5], owners=[seat], sight="human") for seat in range(1, SEATS)]
    return {"format": 1, "lights": {"torch": 5}, "maps": [cave], "seats": seats, "sights": {"human": [12, 2, 2]},
            "tokens": [token(0, "goblin", [18, 5]), *tokens]}


TEXT = json.dumps(campaign()).encode()


# ---- the clients


def hello(seat):
    return {"do": "hello", "seat": seat, "key": f"key-{seat}"}


def line_of(command):
    return json.dumps(command).encode()


def connected(port, server):
    """A connection, once the server listens; none where it ended."""
    while server.poll() is None:
        with contextlib.suppress(OSError):
            return socket.create_connection(("127.0.0.1", port), timeout=PATIENCE)
        time.sleep(0.002)
    return None


class Client:
    """A seat's connection, with the lines that it sent and the bytes that it got."""

    def __init__(self, seat, port, server):
        self.seat, self.port, self.server = seat, port, server
        self.connection, self.sent, self.got, self.read = None, [], b"", 0

    def sit_down(self):
        """Whether the hello was answered."""
        self.connection = connected(self.port, self.server)
        return self.connection is not None and bool(self.exchange([hello(self.seat)]))

    def exchange(self, commands):
        """Sends these lines at once, and takes in what comes up to the last one's reply. The replies; none where the connection ended."""
        lines = [line_of(command) for command in commands]
        self.sent += lines
        with contextlib.suppress(ConnectionError):
            self.connection.sendall(b"".join(line + b"\n" for line in lines))
        replies = []
        while len(replies) < len(lines):
            if not self.receive():
                return []
            replies += [line for line in self.new_lines() if "n" in line]
        return replies

    def receive(self):
        """Whether something came."""
        try:
            piece = self.connection.recv(65536)
        except ConnectionError:
            return False
        except socket.timeout:
            fault(f"seat {self.seat} waited for {PATIENCE} seconds")
            return False
        self.got += piece
        return piece != b""

    def new_lines(self):
        """The whole lines that came since the last call."""
        whole = self.got.rfind(b"\n") + 1
        lines, self.read = self.got[self.read : whole].splitlines(), max(self.read, whole)
        return [json.loads(line) for line in lines]

    def finish(self):
        """Takes in what comes up to the end of the stream, and closes."""
        if self.connection:
            while self.receive():
                pass
            self.connection.close()


class Player(Client):
    """A client that sends what is drawn for it."""

    def __init__(self, seat, port, server, drawing):
        super().__init__(seat, port, server)
        self.drawing, self.cell = drawing, [2 * seat, 5]

    def play(self):
        """Sends all its lines, as long as the server is there."""
        if not self.sit_down():
            return
        for _ in range(BURSTS):
            lines = [self.word() for _ in range(self.drawing.randrange(1, 6))]
            walk = self.walk() if self.seat and self.drawing.random() < 0.6 else None
            replies = self.exchange(lines + [walk] if walk else lines)
            if not replies:
                return
            # Where the next walk begins is known from this reply, so there is one at most, and it is the last line.
            if walk and replies[-1].get("moved", 0):
                self.cell = walk["path"][replies[-1]["moved"] - 1]

    def walk(self):
        """A few steps over the map's cells, which a wall may stop."""
        path = [self.cell]
        for _ in range(self.drawing.randrange(1, 5)):
            x, y = (at + self.drawing.randrange(-1, 2) for at in path[-1])
            cell = [min(max(x, 0), WIDTH - 1), min(max(y, 0), HEIGHT - 1)]
            path += [cell] if cell != path[-1] else []
        return {"do": "move", "token": f"{self.seat}:t", "path": path[1:] or [self.cell]}

    def word(self):
        """A line that needs no reply to another."""
        draw = self.drawing
        talk = [{"do": "say", "text": f"{draw.choice(WORDS)} {draw.randrange(10**6)}", "to": draw.choice(["all", "gm", "self", "gmself", 1, 2, 3, 4])},
                {"do": "roll", "dice": draw.choice(["1d20", "4d6k3", "2d6+1"]), "to": draw.choice(["all", "gm", "self"])},
                {"do": "nonsense"}]
        mine = [{"do": "setprop", "token": f"{self.seat}:t", "class": "public", "name": "hp", "value": str(draw.randrange(20))},
                {"do": "light", "token": f"{self.seat}:t", "light": draw.choice(["torch", None])},
                {"do": "init", "token": f"{self.seat}:t", "value": draw.randrange(20)}]
        master = [{"do": draw.choice(["wall", "unwall"]), **DOOR}, {"do": "mode", "map": "cave", "mode": draw.choice(["day", "night"])},
                  {"do": "place", "token": "0:goblin", "map": "cave", "cell": [draw.randrange(WIDTH), draw.randrange(HEIGHT)]}, {"do": "turn"},
                  {"do": "visible", "token": "0:goblin", "on": draw.random() < 0.5}, {"do": "secret", "token": "0:goblin", "name": "hp", "value": "7"}]
        return draw.choice(talk + (mine if self.seat else master))


# ---- the program


def free_port():
    with socket.create_server(("127.0.0.1", 0)) as door:
        return door.getsockname()[1]


def started(folder, name, port):
    """The server of the log of this name; what it prints is in a file beside it."""
    words = [PROGRAM, "serve", folder / "cave.json", str(port), str(COUNT), "--log", folder / f"{name}.log", "--end"]
    with open(folder / f"{name}.printed", "wb") as out:
        return subprocess.Popen(words, stdin=subprocess.DEVNULL, stdout=out, stderr=subprocess.DEVNULL)


def ran(script, *words):
    """The status of the program over this script, and the lines that it prints."""
    done = subprocess.run([PROGRAM, *words], input=script, stdout=subprocess.PIPE, check=False, timeout=PATIENCE)
    return done.returncode, done.stdout.splitlines(keepends=True)


def script_of(entries):
    """The lines of a history, each with its seat. Where nobody leaves but by a bye, and nobody is cut, the others aren't needed."""
    rows = []
    for entry in entries:
        if entry[0] in (JOIN, LINE):
            line = line_of(hello(entry[1])) if entry[0] == JOIN else entry[2:]
            rows.append(b"%d %s\n" % (entry[1], line))
    return b"".join(rows)


def told_to(seat, printed):
    """What a seat is sent, of what `play` prints."""
    mark = b"%d\t" % seat
    return b"".join(line[len(mark) :] for line in printed if line.startswith(mark))


# ---- what has to hold


def is_front(folder, seat, got, script):
    """Whether these bytes are a front of what the seat is sent by the script, as `verify` says of a player's seat, and `play` of seat 0."""
    if seat == 0:
        return told_to(0, ran(script, "play", folder / "cave.json")[1]).startswith(got)
    (folder / "script").write_bytes(script)
    (folder / "transcript").write_bytes(got)
    status, printed = ran(b"", "verify", folder / "cave.json", folder / "script", str(seat), folder / "transcript")
    return (status, printed) in [(0, [b"equal\n"]), (14, [b"differs at %d\n" % len(got)])]


def look_at_history(folder, name, entries, clients):
    """Each client's lines in the log are the first that it sent, and what it got is a front of what the log's entries come to."""
    script = script_of(entries)
    if any(entry[0] not in (JOIN, LINE, TAKEN) for entry in entries):
        fault(f"{name}: somebody left, or was cut")
    for client in clients:
        mark = b"%d " % client.seat
        lines = [row[len(mark) :] for row in script.splitlines() if row.startswith(mark)]
        if client.sent[: len(lines)] != lines:
            fault(f"{name}: the log's lines of seat {client.seat} aren't the first that it sent")
        if not is_front(folder, client.seat, client.got, script):
            fault(f"{name}: seat {client.seat} got what the log's {len(entries)} entries don't come to")


# What follows when the server is started again, a line at a time.
SECOND = [(1, hello(1)), (0, hello(0)), (2, hello(2)), (2, {"do": "say", "text": "where were we?"}), (1, {"do": "roll", "dice": "3d6", "to": "gm"}),
          (0, {"do": "place", "token": "1:t", "map": "cave", "cell": [11, 6]}), (1, {"do": "move", "token": "1:t", "path": [[10, 6]]}),
          (0, {"do": "dump"}), (2, {"do": "bye"}), (1, {"do": "bye"}), (0, {"do": "bye"})]
SECOND_SCRIPT = b"".join(b"%d %s\n" % (seat, line_of(command)) for seat, command in SECOND)


def served_second(port, server):
    """The clients of the second part, by their seats; none where the server doesn't answer."""
    clients = {}
    for seat, command in SECOND:
        if seat not in clients:
            clients[seat] = Client(seat, port, server)
            is_answered = clients[seat].sit_down()
        else:
            is_answered = bool(clients[seat].exchange([command]))
        if not is_answered:
            return None
    for client in clients.values():
        client.finish()
    return clients


def use_up(port, server, number):
    """So many connections that say nothing."""
    for _ in range(number):
        if connection := connected(port, server):
            connection.close()


def ended(server):
    try:
        return server.wait(PATIENCE)
    except subprocess.TimeoutExpired:
        server.kill()
        return None


def look_at_the_rest(folder, name, port, has):
    """The same command again: each seat is free, all goes on where the log ends, and the campaign that is printed is the log's."""
    log, copy = folder / f"{name}.log", folder / f"{name}.copy"
    if log.exists():
        shutil.copy(log, copy)
    status, printed = ran(SECOND_SCRIPT, "play", folder / "cave.json", "--log", copy, "--end")
    server = started(folder, name, port)
    clients = served_second(port, server)
    if status != 0 or clients is None:
        server.kill()
        fault(f"{name}: started again it takes no hello, or `play` ends with {status}")
        return
    for seat, client in clients.items():
        if client.got != told_to(seat, printed):
            fault(f"{name}: started again it sends seat {seat} something else than `play` with a copy of the log")
    use_up(port, server, COUNT - len(clients))
    look_at_the_end(folder, name, server, has, printed[-1])


def look_at_the_end(folder, name, server, has, written):
    status = ended(server)
    lines = (folder / f"{name}.printed").read_bytes().splitlines(keepends=True)
    if status != 0 or len(lines) != COUNT + 1 or lines[-1] != written:
        fault(f"{name}: started again it ends with {status}, or writes another campaign")
    entries, front = entries_of((folder / f"{name}.log").read_bytes(), TEXT), has + leaves_of(has)
    if entries is None or entries[: len(front)] != front or script_of(entries[len(front) :]) != SECOND_SCRIPT:
        fault(f"{name}: its log isn't what it was, the Leaves and what followed")
    elif ran(b"", "play", folder / "cave.json", "--log", folder / f"{name}.log", "--end") != (0, [written]):
        fault(f"{name}: its log doesn't come to the campaign that was written")


def look_at_no_log(folder, name, port, clients):
    """Where the log wasn't made whole, nobody got a byte, and the program says so."""
    status = ended(started(folder, name, port))
    printed = (folder / f"{name}.printed").read_bytes()
    if any(client.got for client in clients) or status != 11 or not re.fullmatch(rb"tabletop: bad log at \d+\n", printed):
        fault(f"{name}: no log was made, and somebody got something, or status {status}")


# ---- the runs


def evening(folder, name, port, kill_after=None):
    """Serves an evening. Its clients, its server, and how long it took."""
    began = time.monotonic()
    server = started(folder, name, port)
    players = [Player(seat, port, server, random.Random(f"{SEED} {name} {seat}")) for seat in range(SEATS)]
    threads = [threading.Thread(target=player.play) for player in players]
    for thread in threads:
        thread.start()
    if kill_after is not None:
        time.sleep(kill_after)
        server.kill()
        server.wait()
    for thread in threads:
        thread.join()
    return players, server, time.monotonic() - began


def whole_evening(folder):
    """One that nobody kills: each client gets all, and the campaign that is printed is what `play` writes. How long it took."""
    port = free_port()
    players, server, took = evening(folder, "whole", port)
    if server.poll() is not None:
        sys.exit(f"kill: the server ended with {server.returncode}")
    for player in players:
        player.exchange([{"do": "bye"}])
        player.finish()
    use_up(port, server, COUNT - SEATS)
    status, entries = ended(server), entries_of((folder / "whole.log").read_bytes(), TEXT)
    if status != 0 or entries is None:
        sys.exit(f"kill: the whole evening ended with {status}")
    look_at_history(folder, "whole", entries, players)
    _, printed = ran(script_of(entries), "play", folder / "cave.json", "--end")
    if any(player.got != told_to(player.seat, printed) for player in players):
        fault("whole: somebody didn't get all")
    if (folder / "whole.printed").read_bytes().splitlines(keepends=True)[-1] != printed[-1]:
        fault("whole: another campaign is written than by `play`")
    print(f"kill: a whole evening that is served has {len(entries)} entries and takes {took:.2f} s", flush=True)
    return took


def killed_evening(folder, name, kill_after, found):
    port = free_port()
    clients, _, _ = evening(folder, name, port, kill_after)
    for client in clients:
        client.finish()
    log = folder / f"{name}.log"
    left = log.read_bytes() if log.exists() else b""
    has = entries_of(left, TEXT) if left else []
    found["unmade"] += has is None
    if has is None:
        look_at_no_log(folder, name, port, clients)
        return
    found["entries"] += len(has)
    found["lines"] += sum(client.got.count(b"\n") for client in clients)
    look_at_history(folder, name, has, clients)
    look_at_the_rest(folder, name, port, has)


def main():
    random.seed(SEED)
    found = collections.Counter()
    with tempfile.TemporaryDirectory(dir=os.environ.get("FOLDER")) as folder:
        folder = pathlib.Path(folder)
        (folder / "cave.json").write_bytes(TEXT)
        took = whole_evening(folder)
        for name in range(1, KILLS + 1):
            killed_evening(folder, str(name), random.uniform(0, took), found)
    print(f"kill: {KILLS} servers were killed: {found['unmade']} before their log was made, the others at {found['entries']} entries in all, of which "
          f"{found['lines']} lines had come; {len(FAULTS)} faults")
    sys.exit(1 if FAULTS else 0)


main()
