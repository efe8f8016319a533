"""The runs of bench/refused.sh: PROGRAM plays small evenings and serves one, and one allocation, each in turn, finds no memory; and
while it serves, one receive or one send, each in turn, fails.

A play has to print a front, by whole lines, of what it prints with ample memory, then `tabletop: out of memory`, and end with
status 6; or to print all and end with 0, where the memory was not needed for the answer. A server serves three connections side by
side: each has to get a front of what it gets without a fault, by whole lines unless a send failed, and the words that are printed
have to be those of a run without a fault but for one: `Memory` for the session whose own growth was refused, `busy` where it could
not begin, or `ReadFault` where the connection itself had none; `ReadFault` or `WriteFault` for the one whose receive or send failed.
Where each send takes one byte, nothing changes.

    python3 bench/refused.py PROGRAM FOLDER         FOLDER has refuse.so, and is written to
"""

import contextlib
import json
import os
import socket
import subprocess
import sys
import time

PROGRAM, WORK = sys.argv[1:3]
CAMPAIGN = os.path.join(WORK, "campaign.json")
LAST_LINE = b"tabletop: out of memory\n"
# So many whole runs one after another tell that no allocation is left.
STILL = 20
# Seconds after which a connection that gets nothing more, and doesn't end, is held up.
PATIENCE = 20


def seat(key, *tags):
    return {"drawn": 0, "fog": {}, "key": key, "macros": {}, "seed": "0" * 64, "tags": list(tags)}


def campaign(maps, seats, tokens):
    return {"format": 1, "lights": {}, "maps": maps, "seats": seats, "sights": {"human": [10, 0, 2]}, "tokens": tokens}


def ann(name):
    return {"cell": [0, 0], "id": "1:ann", "layer": "token", "light": None, "map": name, "name": "Ann", "own": [], "owners": [1],
            "props": [], "secret": [], "sight": "human", "size": 1, "visible": True}


def a_map(name, rows, vbl, mbl):
    return {"h": len(rows), "mbl": mbl, "mode": "day", "name": name, "rows": rows, "shown": True, "vbl": vbl, "w": len(rows[0])}


EMPTY = campaign([], [seat("g"), seat("a"), seat("b")], [])
CAVE = campaign([a_map("cave", ["..."] * 3, [[2, 0, 2, 4]], [])], [seat("g"), seat("a", "ann")], [ann("cave")])
HALL = campaign([a_map("hall", ["......"], [], [[6, 0, 6, 2]])], [seat("g"), seat("a", "ann")], [ann("hall")])


def hello(number, key=None):
    return {"do": "hello", "key": key or "gab"[number], "seat": number}


def wall(do):
    return {"a": [2, 0], "b": [2, 4], "do": do, "kind": "vbl", "map": "cave"}


def move(*path):
    return {"do": "move", "path": [list(cell) for cell in path], "token": "1:ann"}


# What is played: a campaign, and each line with its seat.
PLAYS = {
    "a hello and a look": (EMPTY, [(1, hello(1)), (1, {"do": "look"})]),
    "a wall that goes and comes": (CAVE, [(0, hello(0)), (1, hello(1)), (0, wall("unwall")), (0, wall("wall"))]),
    "moves": (HALL, [(1, hello(1)), (1, move((1, 0), (2, 0), (3, 0), (4, 0))), (1, move((3, 0), (2, 0), (6, 0))), (1, move((4, 0)))]),
    "a macro": (EMPTY, [(0, hello(0)), (1, hello(1)), (2, hello(2)),
                        (1, {"do": "setmacro", "name": "hit", "text": "[h: x = 1d20][g: x] hit [s: x]"}),
                        (1, {"do": "macro", "name": "hit", "to": "all"}),
                        (1, {"do": "roll", "dice": "1d20", "to": "self"})]),
}

# What is served: the lines of each connection, of which none can change what another gets.
CONNECTIONS = [[hello(1), {"do": "bye"}], [hello(0, "x")], [hello(2), {"do": "say", "text": "hi", "to": "self"}]]
WORDS = ["1 Left", "2 Refused BadKey", "3 Left"]


def faulty(**faults):
    """The environment with these faults, as refuse.c has them: by their names the number of the call that fails, 0 for none."""
    return {**os.environ, "LD_PRELOAD": os.path.join(WORK, "refuse.so"), **{name: str(number) for name, number in faults.items()}}


def lines_of(lines):
    return "".join(f"{json.dumps(line)}\n" for line in lines).encode()


def keep_campaign(world):
    with open(CAMPAIGN, "w", encoding="utf-8") as made:
        json.dump(world, made)


def is_front(text, whole):
    return whole.startswith(text) and (text == b"" or text.endswith(b"\n"))


def in_turn(name, what, run, whole, is_right):
    """Runs with each of these calls failing in turn, up to runs that ask no more; stops at one that isn't right."""
    number, told, still = 0, 0, 0
    while still < STILL:
        number += 1
        given = run(number)
        if not is_right(given, whole):
            raise SystemExit(f"{name}: where {what} {number} fails: {given!r}")
        # Past the last call every run is whole; some calls before it may not be needed either.
        still = still + 1 if given == whole else 0
        told += given != whole
    print(f"{name}: each {what} of {number - still} failed in turn; {told} runs said so, and each was right", flush=True)


# ---- play


def played(script, number):
    """What the program prints, and its status."""
    ran = subprocess.run([PROGRAM, "play", CAMPAIGN], input=script, capture_output=True, env=faulty(REFUSE=number), timeout=60)
    return ran.stdout, ran.returncode


def is_play(given, whole):
    out, status = given
    if status == 0:
        return given == whole
    return status == 6 and out.endswith(LAST_LINE) and is_front(out[: -len(LAST_LINE)], whole[0])


def play_in_turn(name, world, lines):
    keep_campaign(world)
    script = b"".join(b"%d %s" % (number, lines_of([line])) for number, line in lines)
    whole = played(script, 0)
    if whole[1] != 0:
        raise SystemExit(f"{name}: {whole!r} with ample memory")
    in_turn(name, "allocation", lambda number: played(script, number), whole, is_play)


# ---- serve


def free_port():
    with socket.create_server(("127.0.0.1", 0)) as door:
        return door.getsockname()[1]


def connected(port, server):
    """A connection, once the program listens; none where it ended."""
    while server.poll() is None:
        with contextlib.suppress(OSError):
            return socket.create_connection(("127.0.0.1", port), timeout=PATIENCE)
        time.sleep(0.002)
    return None


def sent(connection, lines):
    """Sends these lines and nothing more."""
    with contextlib.suppress(OSError):
        connection.sendall(lines_of(lines))
        connection.shutdown(socket.SHUT_WR)


def got(connection):
    """What comes up to the end of the connection."""
    text = b""
    with contextlib.suppress(ConnectionError):
        while piece := connection.recv(65536):
            text += piece
    return text


def answers(port, server):
    """What each connection gets."""
    with contextlib.ExitStack() as to_close:
        connections = [connected(port, server) for _ in CONNECTIONS]
        for connection, lines in zip(connections, CONNECTIONS):
            if connection:
                to_close.enter_context(connection)
                sent(connection, lines)
        return [got(connection) if connection else b"" for connection in connections]


def served(**faults):
    """What each connection got, what the server printed, and its status; nothing where a connection was held up."""
    port = free_port()
    words = [PROGRAM, "serve", CAMPAIGN, str(port), str(len(CONNECTIONS))]
    quiet = {"stdin": subprocess.DEVNULL, "stderr": subprocess.DEVNULL}
    with subprocess.Popen(words, **quiet, stdout=subprocess.PIPE, env=faulty(**faults)) as server:
        try:
            texts = answers(port, server)
        except TimeoutError:
            server.kill()
            return None
        out = server.stdout.read()
        return texts, out, server.wait(timeout=PATIENCE)


def is_told(given, whole, words):
    """Whether the lines are those without a fault but for at most one session that says what it met, in one of these words."""
    others = [one for one, other in zip(given, whole) if one != other]
    return len(given) == len(whole) and len(others) <= 1 and all(one.split(" ", 1)[1] in words for one in others)


def is_first_part(text, whole, words):
    """Whether a connection got a front; by whole lines, unless a send failed."""
    return whole.startswith(text) if "WriteFault" in words else is_front(text, whole)


def is_served(given, whole, words):
    if given is None:
        return False
    texts, out, status = given
    if not all(is_first_part(text, other, words) for text, other in zip(texts, whole[0])):
        return False
    if status == 0:
        return is_told(out.decode().splitlines(), WORDS, words)
    return status == 6 and "Memory" in words and out.endswith(LAST_LINE) and is_front(out[: -len(LAST_LINE)], whole[1])


# The calls that fail in turn while connections are served, and the words for a session that meets one.
FAULTS = {"allocation": ("REFUSE", ["Memory", "busy", "ReadFault"]), "receive": ("FAIL_RECEIVE", ["ReadFault"]), "send": ("FAIL_SEND", ["WriteFault"])}


def serve_in_turn():
    keep_campaign(EMPTY)
    whole = served()
    if whole is None or (whole[1].decode().splitlines(), whole[2]) != (WORDS, 0):
        raise SystemExit(f"a server: {whole!r} without a fault")
    for what, (name, words) in FAULTS.items():
        in_turn("a server", what, lambda number: served(**{name: number}), whole, lambda given, whole: is_served(given, whole, words))
    if served(SHORT_SEND=1) != whole:
        raise SystemExit("a server: something changes where each send takes one byte")
    print("a server: nothing changes where each send takes one byte")


for title, (world, lines) in PLAYS.items():
    play_in_turn(title, world, lines)
serve_in_turn()
