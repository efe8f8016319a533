"""The first half of bench/kill.sh: runs of `play` with a log that are killed.

    python3 bench/kill_play.py PROGRAM [KILLS]
"""

import collections
import os
import pathlib
import random
import subprocess
import sys
import tempfile
import time

from kill_log import FAULTS, JOIN, TAKEN, entries_of, fault, leaves_of, number

PROGRAM, KILLS = sys.argv[1], int(sys.argv[2]) if len(sys.argv) > 2 else 100
SEED = int(os.environ.get("SEED", "1"))
EVENING = pathlib.Path(__file__).resolve().parent.parent / "examples" / "evening"
CAMPAIGN, SCRIPT = EVENING / "evening.json", EVENING / "evening.script"
TEXT = CAMPAIGN.read_bytes()


def lines_after(entries):
    """How many lines of output are out once the lines of the first 0, 1, .. entries are: a Taken of a seat tells how many lines were queued for
    it since its Join. The evening has no line that is answered but queued for nobody."""
    told, queued, owner, sums = collections.Counter(), collections.Counter(), None, collections.Counter()
    for place, entry in enumerate(entries):
        kind, seat = entry[0], entry[1]
        if kind == TAKEN:
            sums[owner] += number(entry[2:]) - queued[seat]
            queued[seat] = number(entry[2:])
        else:
            owner = place
            queued[seat] = 0 if kind == JOIN else queued[seat]
    counts, out = [0], 0
    for place in range(len(entries)):
        out += sums[place]
        counts.append(out)
    return counts


def run(log, script, output, kill_after=None):
    """Plays the script with the log. Its status, or None where it was killed, and how long it took."""
    began = time.monotonic()
    with open(script, "rb") as source, open(output, "wb") as out:
        process = subprocess.Popen([PROGRAM, "play", CAMPAIGN, "--log", log], stdin=source, stdout=out)
        try:
            return process.wait(kill_after), time.monotonic() - began
        except subprocess.TimeoutExpired:
            process.kill()
            process.wait()
            return None, kill_after


def needed(out, counts):
    """How many of the first entries have a byte of their lines in this output."""
    lines = out.count(b"\n") + (not out.endswith(b"\n") and out != b"")
    return next(place for place, count in enumerate(counts) if count >= lines)


def look(folder, name, whole, entries, counts, found):
    """What a run that was killed left."""
    log, output = folder / f"{name}.log", folder / f"{name}.out"
    out, left = output.read_bytes(), log.read_bytes() if log.exists() else b""
    has = entries_of(left, TEXT)
    if not whole.startswith(out):
        fault(f"{name}: what came out isn't a front of the whole")
    again, _ = run(log, os.devnull, folder / f"{name}.again")
    printed = (folder / f"{name}.again").read_bytes()
    if has is None:
        found["unmade"] += 1
        bad = printed.startswith(b"tabletop: bad log at ") and again == 11
        if out or not (bad or (left == b"" and again == 0 and printed == b"")):
            fault(f"{name}: no log was made, and {len(out)} bytes came out, or status {again}")
        return
    if entries[: len(has)] != has:
        fault(f"{name}: its entries aren't the first of the script's")
    if needed(out, counts) > len(has):
        fault(f"{name}: a line came out whose entry isn't there ({len(has)} entries, {len(out)} bytes)")
    found["entries"] += len(has)
    found["one more"] += needed(out, counts) < len(has)
    if (again, printed) != (0, b"") or entries_of(log.read_bytes(), TEXT) != has + leaves_of(has):
        fault(f"{name}: started again it ended with {again}, or its log isn't these entries and the Leaves")


def main():
    random.seed(SEED)
    with tempfile.TemporaryDirectory(dir=os.environ.get("FOLDER")) as folder:
        folder = pathlib.Path(folder)
        status, took = run(folder / "whole.log", SCRIPT, folder / "whole.out")
        whole, entries = (folder / "whole.out").read_bytes(), entries_of((folder / "whole.log").read_bytes(), TEXT)
        if status != 0 or entries is None:
            sys.exit(f"kill: the whole run ended with {status}")
        counts = lines_after(entries)
        if counts[-1] != whole.count(b"\n"):
            fault(f"the log tells of {counts[-1]} lines, and {len(whole.splitlines())} came out")
        print(f"kill: the whole run has {len(entries)} entries and takes {took:.2f} s", flush=True)
        found, killed, name = collections.Counter(), 0, 0
        while killed < KILLS:
            name += 1
            status, _ = run(folder / f"{name}.log", SCRIPT, folder / f"{name}.out", random.uniform(0, took))
            if status is None:
                killed += 1
                look(folder, str(name), whole, entries, counts, found)
    print(f"kill: {killed} runs were killed: {found['unmade']} before their log was made, the others at {found['entries']} entries in all, "
          f"{found['one more']} with entries whose lines hadn't come out; {len(FAULTS)} faults")
    sys.exit(1 if FAULTS else 0)


main()
