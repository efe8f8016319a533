#!/usr/bin/env bash
# What serving costs: lines a second and the delay of replies where 4 and 16 players say lines to all over TCP, each with WINDOW lines under
# way, 1 unless given, which waits for each reply; with and without a reader beside them that never reads; the program without a log and with
# one, beside unverified servers, all in one run.
#   YARDSTICK=/path/to/limit LOAD=/path/to/load bench/serve.sh [PROGRAM]
# The log lies in a new folder beside the system's other temporary ones, or in FOLDER=PATH. What a sync takes there is measured first, since
# who is told of a line waits for two of them at least. Where that is more than 0.2 ms, a further row has the log in MEMORY, /dev/shm unless
# given: a file system that has nothing to sync, so this row says what all else of a log costs. On a machine that does other work a sync takes
# as long as it takes to be woken: `chrt -r 5 bench/serve.sh` goes before that.
# PROGRAM is crates/tabletop/out/tabletop unless given. YARDSTICK makes the campaign (`limit make SEED LINES FOLDER`) and serves it
# (`limit serve FILE PORT COUNT SHAPE`); LOAD gives it its players' seats (`load make PLAYERS FILE`) and plays them
# (`load PORT PLAYERS LINES say WINDOW`). Compare rows of one run: figures move with the machine's load.
set -eu
here=$(cd "$(dirname "$0")/.." && pwd)
program=${1:-$here/crates/tabletop/out/tabletop}
for tool in YARDSTICK LOAD; do
    if [ -z "${!tool:-}" ] || [ ! -x "${!tool}" ]; then
        echo "bench/serve.sh: set $tool to a program; its use is told at the head of this file" >&2
        exit 2
    fi
done
if [ ! -x "$program" ]; then
    echo "bench/serve.sh: no program at $program; ./tabletop builds it" >&2
    exit 2
fi
work=$(mktemp -d)
trap 'rm -rf "$work"' EXIT
exec python3 - "$program" "$YARDSTICK" "$LOAD" "$work" <<'PYTHON'
import json
import os
import re
import shutil
import socket
import statistics
import subprocess
import sys
import tempfile
import time

PROGRAM, YARDSTICK, LOAD, WORK = sys.argv[1:5]
ROUNDS = int(os.environ.get("ROUNDS", "3"))
# Lines of all players together.
LINES = int(os.environ.get("LINES", "8000"))
WINDOW = os.environ.get("WINDOW", "1")
# Where a sync takes more milliseconds than this, the log is tried in memory too.
SLOW_SYNC = 0.2
MEMORY = os.environ.get("MEMORY", "/dev/shm")


def sync_takes(folder):
    """Milliseconds that a sync takes, as a median of 200: of a record behind a log's closed gate, and of the byte that opens it."""
    took = []
    with tempfile.TemporaryFile(dir=folder, buffering=0) as log:
        for record in range(100):
            for at, piece in ((100 * record + 1, bytes(100)), (100 * record, b"\1")):
                began = time.perf_counter()
                os.pwrite(log.fileno(), piece, at)
                os.fdatasync(log.fileno())
                took.append(time.perf_counter() - began)
    return 1000 * statistics.median(took)


def log_folders():
    """The folders of logs, by the name of their server, each with what a sync takes there."""
    folder = tempfile.mkdtemp(dir=os.environ.get("FOLDER", WORK))
    found = {"with a log": (folder, sync_takes(folder))}
    if found["with a log"][1] > SLOW_SYNC and os.path.isdir(MEMORY):
        folder = tempfile.mkdtemp(dir=MEMORY)
        found["log in memory"] = (folder, sync_takes(folder))
    return found


LOGS = log_folders()
SERVERS = {"tabletop": PROGRAM} | dict.fromkeys(LOGS, PROGRAM) | {"limit combine": YARDSTICK, "limit each": YARDSTICK}


def campaign(players):
    """The campaign for so many players and one seat more, for the reader that never reads."""
    file = os.path.join(WORK, f"{players}.json")
    if not os.path.exists(file):
        subprocess.run([YARDSTICK, "make", "7", "5", WORK], check=True, stdout=subprocess.DEVNULL)
        with open(os.path.join(WORK, "campaign.json"), "rb") as given:
            subprocess.run([LOAD, "make", str(players + 1), file], stdin=given, check=True)
    return file


def free_port():
    with socket.socket() as found:
        found.bind(("127.0.0.1", 0))
        return found.getsockname()[1]


def connected(port):
    """A connection to a server that may not listen yet."""
    for _ in range(400):
        made = socket.socket()
        # What it doesn't read is to wait at the server, not here.
        made.setsockopt(socket.SOL_SOCKET, socket.SO_RCVBUF, 4096)
        try:
            made.connect(("127.0.0.1", port))
            return made
        except OSError:
            made.close()
            time.sleep(0.05)
    raise SystemExit(f"nothing listens at {port}")


def silent_reader(port, seat):
    """A seat that says hello and then reads nothing."""
    made = connected(port)
    made.sendall(json.dumps({"do": "hello", "key": f"k{seat}", "seat": seat}).encode() + b"\n")
    return made


def words_of(name, file, port, count):
    words = [SERVERS[name], "serve", file, str(port), str(count)]
    if name in LOGS:
        return [*words, "--log", os.path.join(LOGS[name][0], f"{port}.log")]
    return words + name.split(" ")[1:]


def measured(name, players, slow):
    """Lines a second, and the delay of replies in us (median, 99th of 100), of one run; None where it fails."""
    port = free_port()
    count = players + slow
    words = words_of(name, campaign(players), port, count)
    server = subprocess.Popen(words, stdout=subprocess.DEVNULL, stderr=subprocess.DEVNULL)
    reader = None
    try:
        if slow:
            reader = silent_reader(port, players + 1)
        load = [LOAD, str(port), str(players), str(max(100, LINES // players)), "say", WINDOW, str(server.pid)]
        ran = subprocess.run(load, capture_output=True, text=True, timeout=240)
        if ran.returncode != 0:
            return None
        rate = re.search(r"(?<!in_)per_s (\S+)", ran.stdout)
        delays = re.search(r"reply_us p50 (\S+) .*?p99 (\S+)", ran.stdout)
        return float(rate[1]), float(delays[1]), float(delays[2])
    except subprocess.TimeoutExpired:
        return None
    finally:
        if reader:
            reader.close()
        try:
            server.wait(timeout=10)
        except subprocess.TimeoutExpired:
            server.kill()
            server.wait()
        if name in LOGS and os.path.exists(words[-1]):
            os.remove(words[-1])


def rows():
    for players in (4, 16):
        for slow in (0, 1):
            # (rounds are interleaved, so that the machine's load meets all servers alike)
            found = {name: [] for name in SERVERS}
            for _ in range(ROUNDS):
                for name in SERVERS:
                    found[name].append(measured(name, players, slow))
            yield players, slow, found


def ratio(found, name, base):
    pairs = [mine[0] / theirs[0] for mine, theirs in zip(found[name], found[base]) if mine and theirs]
    return f"{statistics.median(pairs):.2f}" if pairs else "-"


def sync_line(name):
    folder, takes = LOGS[name]
    kind = subprocess.run(["stat", "-f", "-c", "%T", folder], capture_output=True, text=True, check=True).stdout.strip()
    return f"{name}: a sync of a small write takes {takes:.3f} ms in its folder ({kind}{', which has nothing to sync' if kind == 'tmpfs' else ''})"


try:
    print(f"say to all over TCP, {LINES} lines in all, {WINDOW} of each player under way; medians of {ROUNDS} rounds in one run")
    for name in LOGS:
        print(sync_line(name))
    print(f"{'players':>7} {'silent reader':>13} {'server':<14} {'lines/s':>9} {'of tabletop':>11} {'of limit combine':>16} {'p50 us':>9} {'p99 us':>9}")
    for players, slow, found in rows():
        for name in SERVERS:
            runs = [it for it in found[name] if it]
            figures = [statistics.median(it[part] for it in runs) for part in range(3)] if runs else None
            ratios = f"{ratio(found, name, 'tabletop'):>11} {ratio(found, name, 'limit combine'):>16}"
            text = f"{figures[0]:9.0f} {ratios} {figures[1]:9.1f} {figures[2]:9.1f}" if figures else "    failed"
            print(f"{players:>7} {'yes' if slow else 'no':>13} {name:<14} {text}", flush=True)
finally:
    for folder, _ in LOGS.values():
        shutil.rmtree(folder)
PYTHON
