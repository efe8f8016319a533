#!/usr/bin/env bash
# What a line costs: processor time of the program by kind of line, on a map of 96 by 96 cells with 600 walls and 40 tokens,
# and of whole runs of 2,000 and 10,000 lines, beside an unverified program in the same run.
#   YARDSTICK=/path/to/limit bench/lines.sh [PROGRAM]
# PROGRAM is crates/tabletop/out/tabletop unless given. YARDSTICK is the unverified program; it makes the campaigns and scripts
# (`limit make SEED LINES FOLDER`) and plays them (`limit play FILE`). What it can't play has no figure.
set -eu
here=$(cd "$(dirname "$0")/.." && pwd)
program=${1:-$here/crates/tabletop/out/tabletop}
if [ -z "${YARDSTICK:-}" ] || [ ! -x "$YARDSTICK" ]; then
    echo "bench/lines.sh: set YARDSTICK to the unverified program that makes and plays drills" >&2
    exit 2
fi
if [ ! -x "$program" ]; then
    echo "bench/lines.sh: no program at $program; ./tabletop builds it" >&2
    exit 2
fi
work=$(mktemp -d)
trap 'rm -rf "$work"' EXIT
exec python3 - "$program" "$YARDSTICK" "$work" <<'PYTHON'
import json
import os
import resource
import subprocess
import sys

PROGRAM, YARDSTICK, WORK = sys.argv[1:4]
ROUNDS = 5
LINES = 2000
# A short line is told from none by many of them. A seat has 16,384 lines at most, so all four players say them in turn.
SHORT_LINES = 64000
PLAYERS = 4


def processor_time(command, script):
    """The least user and system time of a few runs, in seconds; None where the run fails."""
    best = None
    for _ in range(ROUNDS):
        with open(script, "rb") as given:
            before = resource.getrusage(resource.RUSAGE_CHILDREN)
            ended = subprocess.run(command, stdin=given, stdout=subprocess.DEVNULL, stderr=subprocess.DEVNULL)
            after = resource.getrusage(resource.RUSAGE_CHILDREN)
        if ended.returncode != 0:
            return None
        spent = (after.ru_utime - before.ru_utime) + (after.ru_stime - before.ru_stime)
        best = spent if best is None else min(best, spent)
    return best


def make(seed, lines):
    folder = os.path.join(WORK, f"{seed}-{lines}")
    os.makedirs(folder, exist_ok=True)
    subprocess.run([YARDSTICK, "make", str(seed), str(lines), folder], check=True)
    return os.path.join(folder, "campaign.json"), os.path.join(folder, "script.txt")


def line(sender, **fields):
    return f"{sender} {json.dumps(fields, separators=(',', ':'))}\n"


def there_and_back(seat, token, cell, count):
    """So many steps of the token between two cells side by side."""
    x, y = cell
    other = [x + 1, y] if x < 95 else [x - 1, y]
    return [line(seat, do="move", token=token, path=[other if k % 2 == 0 else [x, y]]) for k in range(count)]


def in_turn(**fields):
    """A short line of each player in turn."""
    return [line(1 + k % PLAYERS, **fields) for k in range(SHORT_LINES)]


def kinds(campaign):
    """The lines of each kind, which are played behind the seats' hellos."""
    tokens = {token["id"]: token for token in json.load(open(campaign))["tokens"]}
    unowned = tokens["0:t37"]  # on the layer hidden, so that no player's view changes
    yield "say to all", in_turn(do="say", text="hello", to="all"), True
    yield "roll to oneself", in_turn(do="roll", dice="4d6k3", to="self"), True
    yield "move of a hidden token", [
        line(0, do="place", token="0:t37", map="drill", cell=[k % 2 + unowned["cell"][0] % 90, 3]) for k in range(LINES)], True
    yield "move of a player's token", there_and_back(1, "0:t4", tokens["0:t4"]["cell"], LINES), True
    yield "move of a token with a light", there_and_back(1, "0:t0", tokens["0:t0"]["cell"], LINES), True
    yield "wall and unwall", [
        line(0, do=("wall", "unwall")[k % 2], map="drill", kind="vbl", a=[90, 91], b=[94, 91]) for k in range(LINES)], False
    yield "wall", [
        line(0, do="wall", map="drill", kind="vbl", a=[2 + k % 180, 3 + k // 180], b=[4 + k % 180, 3 + k // 180]) for k in range(LINES)], True
    yield "expose and hide", [
        line(0, do=("expose", "hide")[k % 2], seat=1, map="drill", rect=[0, 0, 10, 10]) for k in range(LINES)], False


def told(seconds, lines, base):
    return None if seconds is None or base is None else (seconds - base) / lines * 1e6


def row(name, ours, theirs):
    shown = "-" if theirs is None else f"{theirs:10.1f}"
    ratio = "-" if theirs is None or ours is None or theirs <= 0 else f"{ours / theirs:6.1f}"
    mine = "-" if ours is None else f"{ours:10.1f}"
    print(f"{name:34} {mine:>10} {shown:>10} {ratio:>7}", flush=True)


campaign, script = make(7, 2000)
hellos = open(script).readlines()[:5]
base_script = os.path.join(WORK, "base.txt")
open(base_script, "w").writelines(hellos)
ours_base = processor_time([PROGRAM, "play", campaign], base_script)
theirs_base = processor_time([YARDSTICK, "play", campaign], base_script)
print(f"{'':34} {'program':>10} {'yardstick':>10} {'ratio':>7}")
row("opening and five hellos, us", None if ours_base is None else ours_base * 1e6, theirs_base * 1e6)
print("us a line:")
for name, lines, known in kinds(campaign):
    path = os.path.join(WORK, "kind.txt")
    open(path, "w").writelines(hellos + lines)
    ours = told(processor_time([PROGRAM, "play", campaign], path), len(lines), ours_base)
    theirs = told(processor_time([YARDSTICK, "play", campaign], path), len(lines), theirs_base) if known else None
    row(name, ours, theirs)
print("whole runs, ms of processor time:")
for lines in (2000, 10000):
    for seed in (7, 1, 2):
        campaign, script = make(seed, lines)
        ours = processor_time([PROGRAM, "play", campaign], script)
        theirs = processor_time([YARDSTICK, "play", campaign], script)
        row(f"seed {seed}, {lines:,} lines", None if ours is None else ours * 1e3, None if theirs is None else theirs * 1e3)
PYTHON
