#!/usr/bin/env bash
# Two long runs of the server under hostile use, at a campaign of 33 seats, each of 1,024 connections and with 256 descriptors.
# The evening: the game master says thousands of long lines to all; 24 players read and come and go, some in the middle of a line; 8
# say hello and never read, and have to be cut while the others go on; the other connections have wrong keys, say nothing, or leave at
# once. It ends within ten minutes.
# The silence: a session ends in each way that a client can bring about, and then all connections that are left of the count, 1,000
# about, say nothing. It takes a minute for each 250 of them (the system gives the server no more at once), about five in all.
#   bench/soak.sh [PROGRAM]
# PROGRAM is crates/tabletop/out/tabletop unless given; DESCRIPTORS=N gives it so many instead of 256, and
# PARTS=silence runs that alone. It needs Linux and Python 3.9 or later. Checked are:
#   - each connection ends with one of the words of docs/PROTOCOL.md, and the program with status 0;
#   - whoever doesn't read is cut: while its connection is still open, its seat takes a new hello;
#   - for each session that reads: `n` rises by one from reply to reply; the game master's messages come each once, in order and without
#     a gap; the view kept from change lines equals the one that a look gives at the end;
#   - the program's memory stays within what docs/DESIGN.md tells ("Memory");
#   - whose session is over sees the end of its stream within a second, for each word but two: who is told `WriteFault` has gone, and
#     `Memory` is tried by bench/refused.sh;
#   - who says nothing sees it a minute after the server took the connection, and nobody holds back the end for longer.
set -eu
here=$(cd "$(dirname "$0")/.." && pwd)
program=${1:-$here/crates/tabletop/out/tabletop}
if [ ! -x "$program" ]; then
    echo "bench/soak.sh: no program at $program; ./tabletop builds it" >&2
    exit 2
fi
exec python3 -B - "$program" "$here/examples" <<'PYTHON'
import collections
import contextlib
import json
import os
import random
import re
import resource
import socket
import subprocess
import sys
import tempfile
import threading
import time

PROGRAM, EXAMPLES = sys.argv[1:3]
sys.path.insert(0, EXAMPLES)

import client  # noqa: E402

CONNECTIONS = int(os.environ.get("CONNECTIONS", "1024"))
PLAYERS, SILENT = 32, 8
READERS = PLAYERS - SILENT
# The kernel takes some millions of bytes for a connection that nobody reads before anything waits.
SAYS = int(os.environ.get("SAYS", "12000"))
DESCRIPTORS = int(os.environ.get("DESCRIPTORS", "256"))
LIMIT = 600
# Seconds: for a first line, between the end of a session and that of its stream, and what a loaded machine may add.
FIRST_LINE, MOMENT, SLACK = 60, 1, 5
# The descriptors that the server has for other things than connections.
OWN_DESCRIPTORS = 8
LINES = 16_384
# Bytes that may wait for a session, and what a session may take beside them while they are written.
WAITING, COPIES = 4_194_304, 2
WORD = "(Left|Refused (BadKey|SeatTaken|Spent|NoHello)|TooLong|Spent|Cut|ReadFault|WriteFault|Memory|busy)"
WORDS, NOTES = re.compile(rf"\d+ {WORD}"), re.compile(rf"connection \d+ (opened|sat down at seat \d+|{WORD})")
FAULTS = []
# How many connections a part has made so far.
MADE = collections.Counter()


def fault(words):
    FAULTS.append(words)
    print(f"soak: {words}", flush=True)


def campaign():
    """A map of 40 by 40 cells with some walls; each player has one token on it."""
    walls = [[4 * k, 10, 4 * k + 3, 10] for k in range(1, 15)]
    cave = {"h": 40, "mbl": [], "mode": "day", "name": "cave", "rows": ["." * 40] * 40, "shown": True, "vbl": walls, "w": 40}
    seats = [{"drawn": 0, "fog": {}, "key": f"k{k}", "macros": {}, "seed": f"{k:064x}", "tags": ["t"] if k else []} for k in range(PLAYERS + 1)]
    tokens = [{"cell": [k, k], "id": f"{k}:t", "layer": "token", "light": None, "map": "cave", "name": f"T{k}", "own": [], "owners": [k],
               "props": [], "secret": [], "sight": "human", "size": 1, "visible": True} for k in range(1, PLAYERS + 1)]
    return {"format": 1, "lights": {}, "maps": [cave], "seats": seats, "sights": {"human": [10, 0, 2]}, "tokens": tokens}


class Session:
    """A connection that reads, and checks that its lines fit together."""

    def __init__(self, port, seat):
        self.seat, self.count, self.view, self.heard = seat, None, None, None
        self.socket = connection(port)
        self.file = self.socket.makefile("rb")

    def send(self, **command):
        self.socket.sendall(json.dumps(command).encode() + b"\n")

    def hello(self):
        """Sits down; false where the seat is still taken."""
        self.send(do="hello", key=f"k{self.seat}", seat=self.seat)
        return "ok" in self.reply()

    def take(self):
        """Takes in one line and gives it."""
        raw = self.file.readline()
        if not raw:
            raise EOFError
        line = json.loads(raw)
        if "full" in line:
            self.take_full(client.View.read(line["full"]))
        elif "change" in line:
            self.view.apply(line["change"])
        elif line.get("from") == 0 and line["text"].startswith("#"):
            self.take_message(int(line["text"][1:].split(" ", 1)[0]))
        return line

    def take_full(self, view):
        if self.view is not None and self.view != view:
            fault(f"seat {self.seat}: the view kept from changes isn't the one that a look gives")
        self.view = view

    def take_message(self, number):
        if self.heard is not None and number != self.heard + 1:
            fault(f"seat {self.seat}: message {number} came behind message {self.heard}")
        self.heard = number

    def reply(self):
        """Takes in lines up to the next reply, and gives that."""
        while True:
            line = self.take()
            if "n" in line:
                break
        if "refused" not in line or line["n"] > 0:
            if self.count is not None and line["n"] != self.count + 1:
                fault(f"seat {self.seat}: n {line['n']} came behind n {self.count}")
            self.count = line["n"]
        return line

    def look(self):
        self.send(do="look")
        self.reply()
        while "full" not in self.take():
            pass

    def bye(self):
        self.send(do="bye")
        self.reply()
        self.close()

    def close(self):
        self.file.close()
        self.socket.close()


class Budget:
    """How many connections may still be made, in all."""

    def __init__(self, left):
        self.left, self.lock = left, threading.Lock()

    def take(self):
        with self.lock:
            is_left = self.left > 0
            self.left -= is_left
            return is_left


def play(session, rng):
    """A few lines of a player who reads: rolls, words, steps, and refusals among them."""
    for _ in range(rng.randrange(2, 12)):
        choice = rng.randrange(5)
        if choice == 0:
            session.send(do="roll", dice="2d6+1", to="self")
        elif choice == 1:
            session.send(do="say", text="hm", to="gm")
        elif choice == 2:
            session.send(do="move", token="0:none", path=[[0, 0]])
        else:
            at = session.view.tokens[f"{session.seat}:t"].cell
            step = rng.choice([(0, 1), (1, 0), (0, -1), (-1, 0)])
            session.send(do="move", token=f"{session.seat}:t", path=[[at[0] + step[0], at[1] + step[1]]])
        session.reply()
        # (the change that a move makes comes behind its reply)
        if choice >= 3:
            session.look()


def reader(port, seat, budget, over, told):
    """Sits down again and again until the evening is over."""
    rng = random.Random(seat)
    while not over.is_set() and budget.take():
        session = Session(port, seat)
        try:
            if not session.hello():
                session.close()
                time.sleep(0.05)
                continue
            while session.view is None:
                session.take()
            play(session, rng)
            if rng.randrange(4) == 0:
                session.socket.sendall(b'{"do":"sa')
                session.close()
            else:
                session.look()
                session.bye()
            told["sessions"] += 1
        except (EOFError, OSError) as error:
            fault(f"seat {seat}: the connection broke: {error!r}")
            return
        time.sleep(rng.random() / 4)


def silent(port, seat):
    """Says hello and never reads."""
    made = socket.socket()
    made.setsockopt(socket.SOL_SOCKET, socket.SO_RCVBUF, 4096)
    made.connect(("127.0.0.1", port))
    made.sendall(json.dumps({"do": "hello", "key": f"k{seat}", "seat": seat}).encode() + b"\n")
    return made


def junk(port, number):
    """A connection that is no player's."""
    made = socket.create_connection(("127.0.0.1", port), timeout=60)
    kind = number % 4
    if kind == 0:
        made.sendall(b'{"do":"hello","seat":3,"key":"nobody knows"}\n')
        made.recv(200)
    elif kind == 1:
        made.sendall(b'{"do":"look"}\n')
        made.recv(200)
    elif kind == 2:
        made.sendall(b'{"do":"hel')
    made.close()


def game_master(port, over, told):
    """Says numbered lines of a thousand bytes to all, and reads what comes."""
    session = Session(port, 0)
    session.hello()
    for number in range(SAYS):
        session.send(do="say", text=f"#{number} " + "x" * 990, to="all")
        session.reply()
        if number % 50 == 0:
            session.send(do="visible", token=f"{1 + number // 50 % PLAYERS}:t", on=number % 100 == 0)
            session.reply()
    session.look()
    told["says"] = session.heard + 1 if session.heard is not None else 0
    over.set()
    session.bye()


def resident(server):
    """The most memory that the program held, in bytes."""
    with open(f"/proc/{server.pid}/status", encoding="ascii") as told:
        return next(int(line.split()[1]) * 1024 for line in told if line.startswith("VmHWM"))


def is_cut(port, seat):
    """Whether the seat, whose first connection is still open, takes a new hello."""
    session = Session(port, seat)
    try:
        return session.hello()
    finally:
        session.close()


def listen_for(port):
    for _ in range(600):
        try:
            return Session(port, 0)
        except OSError:
            time.sleep(0.1)
    raise SystemExit("soak: the program doesn't listen")


def free_port():
    with socket.create_server(("127.0.0.1", 0)) as door:
        return door.getsockname()[1]


def served(folder):
    """A server of the campaign, and its port. Its notes of each connection, on standard error, go to a file."""
    file, port = os.path.join(folder, "campaign.json"), free_port()
    with open(file, "w", encoding="utf-8") as made:
        json.dump(campaign(), made)
    words = [PROGRAM, "serve", file, str(port), str(CONNECTIONS), "--end"]
    limit = (DESCRIPTORS, DESCRIPTORS)
    with open(os.path.join(folder, "notes"), "wb") as notes:
        server = subprocess.Popen(words, stdout=subprocess.PIPE, stderr=notes, preexec_fn=lambda: resource.setrlimit(resource.RLIMIT_NOFILE, limit))
    threading.Timer(LIMIT, server.kill).start()
    listen_for(port).close()
    return server, port


def main():
    parts = {"evening": evening, "silence": silence}
    # (each silent connection is a descriptor here too)
    most = resource.getrlimit(resource.RLIMIT_NOFILE)[1]
    resource.setrlimit(resource.RLIMIT_NOFILE, (most, most))
    for part in [parts[name] for name in os.environ.get("PARTS", " ".join(parts)).split()]:
        begun, told = time.time(), collections.Counter()
        with tempfile.TemporaryDirectory() as folder:
            MADE.clear()
            server, port = served(folder)
            part(server, port, told)
            printed, _ = server.communicate(timeout=FIRST_LINE + 60)
            with open(os.path.join(folder, "notes"), encoding="ascii") as notes:
                check_notes(notes.read().splitlines())
        told["seconds"] = int(time.time() - begun)
        tell(part.__name__, printed.decode().splitlines(), server.returncode, told)
    print("soak: ok" if not FAULTS else f"soak: {len(FAULTS)} faults")
    sys.stdout.flush()
    os._exit(1 if FAULTS else 0)


def evening(server, port, told):
    base, over = resident(server), threading.Event()
    # One connection looked whether the program listens, one is the game master's, and each silent seat has two.
    budget = Budget(CONNECTIONS - 2 - 2 * SILENT - CONNECTIONS // 4)
    quiet = {seat: silent(port, seat) for seat in range(READERS + 1, PLAYERS + 1)}
    time.sleep(1)
    threads = [threading.Thread(target=reader, args=(port, seat, budget, over, told)) for seat in range(1, READERS + 1)]
    threads.append(threading.Thread(target=game_master, args=(port, over, told)))
    for thread in threads:
        thread.start()
    for number in range(CONNECTIONS // 4):
        junk(port, number)
    for thread in threads:
        thread.join()
    for seat in quiet:
        told["cut"] += is_cut(port, seat)
    if told["cut"] != SILENT:
        fault(f"{told['cut']} of {SILENT} silent seats were cut")
    # What is left of the count is used up by connections that say nothing.
    for _ in range(budget.left):
        socket.create_connection(("127.0.0.1", port), timeout=60).close()
    told["memory"] = resident(server)
    most = base + (PLAYERS + 1) * WAITING * COPIES + 64 * 1024 * 1024
    if told["memory"] > most:
        fault(f"memory came to {told['memory'] >> 20} MiB, where {most >> 20} MiB were to do")
    for made in quiet.values():
        made.close()


def seconds_to_end(made):
    """How long it takes from the last byte that comes to the end of the stream, which the server makes."""
    last = time.time()
    while made.recv(65536):
        last = time.time()
    return time.time() - last


def ends(word, made):
    """The client sees the end of its stream, and closes its connection only then."""
    try:
        waited = seconds_to_end(made)
    except OSError as error:
        fault(f"{word}: no end of the stream but {error!r}")
        return
    finally:
        made.close()
    if waited > MOMENT:
        fault(f"{word}: the stream ended {waited:.1f} s after the last byte")


def connection(port, *parts):
    """A connection that sends these bytes."""
    made = socket.socket()
    # (with less room than a segment takes, the system sends what waits for a client that reads again only after minutes)
    made.setsockopt(socket.SOL_SOCKET, socket.SO_RCVBUF, 1 << 18)
    made.settimeout(120)
    made.connect(("127.0.0.1", port))
    MADE["now"] += 1
    made.sendall(b"".join(parts))
    return made


def hello(seat, key=None):
    return json.dumps({"do": "hello", "key": key or f"k{seat}", "seat": seat}).encode() + b"\n"


def all_endings(server, port, told):
    """One session for each word that a client can bring about and see."""
    master = Session(port, 0)
    master.hello()
    ends("Left", connection(port, hello(1), b'{"do":"bye"}\n'))
    half = connection(port, hello(2), b'{"do":"look"}\n')
    half.shutdown(socket.SHUT_WR)
    ends("Left", half)
    ends("Refused BadKey", connection(port, hello(1, "x")))
    ends("Refused NoHello", connection(port, b'{"do":"look"}\n'))
    ends("Refused SeatTaken", connection(port, hello(0)))
    ends("TooLong", connection(port, b"x" * 4097))
    ends("TooLong", connection(port, hello(3), b"x" * 100_000))
    ends("Spent", spent(port, 4))
    ends("Refused Spent", connection(port, hello(4)))
    ends("Cut", cut(port, 5, master))
    told["busy"] = no_thread(server, port)
    master.bye()


def spent(port, seat):
    """A seat that has sent its last line."""
    made = connection(port, hello(seat))
    sender = threading.Thread(target=lambda: made.sendall(b"{}\n" * (LINES - 1)))
    sender.start()
    text = b""
    while b'"n":%d,' % LINES not in text:
        text = text[-64:] + made.recv(65536)
    sender.join()
    return made


def cut(port, seat, master):
    """A seat that reads nothing until it is cut, and then sends one line more."""
    made = connection(port, hello(seat))
    for _ in range(SAYS):
        master.send(do="say", text="x" * 1000, to=seat)
        master.reply()
    if not is_cut(port, seat):
        fault("a seat that doesn't read wasn't cut")
    made.sendall(b"{}\n")
    return made


def no_thread(server, port):
    """Connections until the system gives the server no memory for a thread: the threads of sessions that are over leave it some."""
    with open(f"/proc/{server.pid}/statm", encoding="ascii") as pages:
        size = int(pages.read().split()[0]) * resource.getpagesize()
    before = resource.prlimit(server.pid, resource.RLIMIT_AS, (size + (1 << 20), resource.RLIM_INFINITY))
    kept, found = [], False
    while not found and len(kept) < 50:
        kept.append(connection(port))
        kept[-1].settimeout(MOMENT)
        with contextlib.suppress(TimeoutError):
            found = kept[-1].recv(1) == b""
    resource.prlimit(server.pid, resource.RLIMIT_AS, before)
    if not found:
        fault("busy: no connection saw the end of its stream")
    for made in kept:
        made.close()
    return len(kept)


def unheard(port, found):
    """A connection that says nothing, until the end of its stream."""
    while True:
        try:
            made = socket.create_connection(("127.0.0.1", port), timeout=LIMIT)
            break
        except OSError:
            time.sleep(0.5)
    begun = time.time()
    try:
        while made.recv(4096):
            fault("a connection that says nothing is sent something")
    except OSError as error:
        fault(f"a connection that says nothing: {error!r}")
    found.append(time.time() - begun)
    made.close()


def silence(server, port, told):
    all_endings(server, port, told)
    silent_ones = CONNECTIONS - MADE["now"]
    begun, found = time.time(), []
    threads = [threading.Thread(target=unheard, args=(port, found)) for _ in range(silent_ones)]
    for thread in threads:
        thread.start()
    for thread in threads:
        thread.join()
    server.wait(timeout=60)
    told["waited"] = int(time.time() - begun)
    told["silent"], told["first"], told["last"] = silent_ones, int(min(found)), int(max(found))
    waves = -(-silent_ones // (DESCRIPTORS - OWN_DESCRIPTORS))
    if min(found) < FIRST_LINE - SLACK:
        fault(f"a connection that says nothing was over after {min(found):.1f} s")
    if told["waited"] > waves * (FIRST_LINE + SLACK):
        fault(f"{silent_ones} connections that say nothing held back the end for {told['waited']} s")


def check_notes(lines):
    """The notes tell of each connection that it was opened, and nothing but what they may."""
    for line in lines:
        if not NOTES.fullmatch(line):
            fault(f"a note is {line!r}")
    if sum(line.endswith(" opened") for line in lines) != CONNECTIONS:
        fault("the notes don't tell of each connection that it was opened")


def tell(part, lines, status, told):
    words, last = lines[:-1], lines[-1] if lines else ""
    for number, line in enumerate(words, 1):
        if not WORDS.fullmatch(line) or not line.startswith(f"{number} "):
            fault(f"line {number} is {line!r}")
    if len(words) != CONNECTIONS:
        fault(f"{len(words)} connections were told, not {CONNECTIONS}")
    if status != 0 or not last.startswith('{"format":2'):
        fault(f"status {status}, last line {last[:60]!r}")
    found = collections.Counter(line.split(" ", 1)[1] for line in words)
    print(f"soak: {part}: " + ", ".join(f"{name} {told[name]}" for name in sorted(told)))
    print(f"soak: {part}: " + ", ".join(f"{word} {count}" for word, count in sorted(found.items())), flush=True)


main()
PYTHON
