#!/usr/bin/env bash
# What a line costs at a small table and at the largest: processor time of the program by kind of line. All tables have the same first map, of 96 by 96
# cells with 2,047 walls, on which all that is done is done; the larger ones have more maps, tokens and seats, which see nothing of it.
#   bench/big.sh [PROGRAM]
# PROGRAM is crates/tabletop/out/tabletop unless given. It prints microseconds a line, and how many times the smallest table's the largest one's are.
set -eu
here=$(cd "$(dirname "$0")/.." && pwd)
program=${1:-$here/crates/tabletop/out/tabletop}
if [ ! -x "$program" ]; then
    echo "bench/big.sh: no program at $program; ./tabletop builds it" >&2
    exit 2
fi
work=$(mktemp -d)
trap 'rm -rf "$work"' EXIT
exec python3 - "$program" "$work" <<'PYTHON'
import json
import os
import random
import resource
import subprocess
import sys

PROGRAM, WORK = sys.argv[1:3]
ROUNDS = 5
LINES = 400
# A short line is told from none by many of them.
SHORT_LINES = 12000
# One wall fewer than a map may have, so that one can be built.
SIDE, WALLS = 96, 2047
# Maps, tokens, seats.
TABLES = {"small": (1, 5, 3), "middle": (3, 50, 9), "large": (8, 200, 33)}


def walls(dice):
    """So many different short walls, level or upright."""
    found = set()
    while len(found) < WALLS:
        x, y, length = dice.randrange(2 * SIDE - 6), dice.randrange(2 * SIDE - 6), dice.randrange(1, 7)
        found.add((x, y, x + length, y) if dice.randrange(2) else (x, y, x, y + length))
    return sorted(map(list, found))


def board(number):
    # (each map has the same walls in every table)
    return {"h": SIDE, "mbl": [], "mode": "night", "name": f"m{number}", "rows": ["." * SIDE] * SIDE, "shown": True, "vbl": walls(random.Random(number)), "w": SIDE}


def seat(number, tags):
    return {"drawn": 0, "fog": {}, "key": "k", "macros": {}, "seed": f"{number:064x}", "tags": tags}


def token(number, maps, seats):
    """The first five stand on the first map and are the first two players', or nobody's; all others are the further seats', on the further maps."""
    near = number < 5
    owner = 1 + number % 2 if near else 1 + number % (seats - 1)
    return {
        "cell": [10 + 7 * number % 80, 10 + 11 * number % 80], "id": f"0:t{number:03}", "layer": "hidden" if number == 4 else "token",
        "light": "torch" if number % 2 else None, "map": "m0" if near else f"m{1 + number % (maps - 1)}", "name": "t", "own": [],
        "owners": [] if number == 4 else [max(owner, 1 if near else 3)], "props": [["hp", "10"]], "secret": [], "sight": "human", "size": 1, "visible": True,
    }


def campaign(maps, tokens, seats):
    tags = [f"t{number:03}" for number in range(tokens)]
    return {
        "format": 1, "lights": {"torch": 8}, "maps": [board(number) for number in range(maps)],
        "seats": [seat(number, [] if number else tags) for number in range(seats)], "sights": {"human": [30, 4, 2]},
        "tokens": [token(number, maps, seats) for number in range(tokens)],
    }


def line(sender, **fields):
    return f"{sender} {json.dumps(fields, separators=(',', ':'))}\n"


def steps(sender, made):
    """The token goes to and fro between two cells side by side."""
    x, y = made["cell"]
    return [line(sender, do="move", token=made["id"], path=[[x + 1 - at % 2, y]]) for at in range(LINES)]


def walks(sender, made):
    """The token goes five steps and comes back, in one move."""
    x, y = made["cell"]
    path = [[x + min(step, 10 - step), y] for step in range(1, 11)]
    return [line(sender, do="move", token=made["id"], path=path)] * LINES


def kinds(tokens):
    """The lines of each kind."""
    walled = {"map": "m0", "kind": "vbl", "a": [90, 91], "b": [94, 91]}
    yield "say to oneself", [line(1, do="say", text="hello", to="self")] * SHORT_LINES
    yield "roll to oneself", [line(1, do="roll", dice="4d6k3", to="self")] * SHORT_LINES
    yield "own property", [line(1, do="setprop", token="0:t000", **{"class": "own"}, name="mp", value=str(at)) for at in range(LINES)]
    yield "secret property", [line(0, do="secret", token="0:t004", name="hp", value=str(at)) for at in range(LINES)]
    yield "move", steps(1, tokens[0])
    yield "move with a light", steps(2, tokens[1])
    yield "move of a hidden token", steps(0, tokens[4])
    yield "move of ten steps", walks(1, tokens[0])
    yield "the same on a map with a trail", [line(0, do="trail", map="m0", on=True)] + walks(1, tokens[0])
    yield "wall and unwall", [line(0, do=("wall", "unwall")[at % 2], **walled) for at in range(LINES)]
    yield "wall that blocks movement", [line(0, do=("wall", "unwall")[at % 2], **(walled | {"kind": "mbl"})) for at in range(LINES)]
    yield "expose and hide", [line(0, do=("expose", "hide")[at % 2], seat=1, map="m0", rect=[0, 0, 10, 10]) for at in range(LINES)]
    yield "terrain", [line(0, do="terrain", map="m0", rect=[2, 2, 4, 4], kind="wg"[at % 2]) for at in range(LINES)]


def processor_time(file, script):
    """The least user and system time of a few runs, in seconds."""
    best = float("inf")
    for _ in range(ROUNDS):
        before = resource.getrusage(resource.RUSAGE_CHILDREN)
        subprocess.run([PROGRAM, "play", file], input=script.encode(), stdout=subprocess.DEVNULL, check=True)
        after = resource.getrusage(resource.RUSAGE_CHILDREN)
        best = min(best, after.ru_utime - before.ru_utime + after.ru_stime - before.ru_stime)
    return best


def measured(name, sizes):
    """Microseconds a line of each kind at a table of these sizes, behind the opening and all hellos."""
    made = campaign(*sizes)
    file = os.path.join(WORK, f"{name}.json")
    with open(file, "w") as out:
        json.dump(made, out)
    hellos = "".join(line(number, do="hello", seat=number, key="k") for number in range(sizes[2]))
    base = processor_time(file, hellos)
    times = {"opening and hellos, in all": base * 1e6}
    for kind, lines in kinds(made["tokens"]):
        times[kind] = (processor_time(file, hellos + "".join(lines)) - base) / len(lines) * 1e6
    return times


times = {name: measured(name, sizes) for name, sizes in TABLES.items()}
print(f"{'microseconds a line':28}" + "".join(f"{name:>12}" for name in TABLES) + f"{'ratio':>8}")
for kind in times["small"]:
    row = [times[name][kind] for name in TABLES]
    print(f"{kind:28}" + "".join(f"{spent:12.1f}" for spent in row) + f"{row[-1] / row[0]:8.1f}")
PYTHON
