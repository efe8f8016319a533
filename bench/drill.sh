#!/usr/bin/env bash
# What a drill costs: user time and peak memory of the program at 2,000 and 10,000 lines, seeds 7, 1 and 2, beside an unverified
# program in the same run, and the ratios.
#   YARDSTICK=/path/to/limit bench/drill.sh [PROGRAM]
# PROGRAM is crates/tabletop/out/tabletop unless given. YARDSTICK is the unverified program (`limit drill SEED LINES`). It needs
# Python 3 and GNU time (/usr/bin/time).
#
# And whether both make the same drills, by the SHA-256 digests of their campaigns and scripts: the numbers 0 to 49, with 200 lines.
#   YARDSTICK=/path/to/limit bench/drill.sh --texts
# No form of the program's words prints them: a throw-away crate of drill.txt is made beside copies of the crates, and run
# (by `rt try`, so without proofs); the unverified program writes its own (`limit make SEED LINES FOLDER`).
set -eu
here=$(cd "$(dirname "$0")/.." && pwd)
if [ -z "${YARDSTICK:-}" ] || [ ! -x "$YARDSTICK" ]; then
    echo "bench/drill.sh: set YARDSTICK to the unverified program that makes and plays drills" >&2
    exit 2
fi
work=$(mktemp -d)
trap 'rm -rf "$work"' EXIT

if [ "${1:-}" = --texts ]; then
    crate=$work/repo/crates/bench_drill
    mkdir -p "$crate/src" "$crate/specs" "$crate/proofs"
    tar -C "$here/crates" --exclude=out --exclude=must-fail -cf - . | tar -C "$work/repo/crates" -xf -
    cp "$here/crates.txt" "$work/repo/crates.txt"
    echo 'bench_drill: names drill sha2 hex' >>"$work/repo/crates.txt"
    : >"$crate/specs/Lib.antt"
    : >"$crate/proofs/Lib.antt"
    cp "$here/bench/drill.txt" "$crate/src/main.rt"
    (cd "$crate" && rt try --seconds 500 -- 50 200) >"$work/ours" 2>"$work/log" || { cat "$work/log" >&2; exit 1; }
    for number in $(seq 0 49); do
        mkdir "$work/$number"
        "$YARDSTICK" make "$number" 200 "$work/$number"
        { cat "$work/$number/campaign.json"; echo; cat "$work/$number/script.txt"; } | sha256sum | cut -d ' ' -f 1
    done >"$work/theirs"
    cmp "$work/ours" "$work/theirs"
    echo "the same $(wc -l <"$work/ours") campaigns and scripts of 200 lines"
    exit 0
fi

program=${1:-$here/crates/tabletop/out/tabletop}
if [ ! -x "$program" ]; then
    echo "bench/drill.sh: no program at $program; ./tabletop builds it" >&2
    exit 2
fi
exec python3 - "$program" "$YARDSTICK" <<'PYTHON'
import os
import subprocess
import sys

PROGRAM, YARDSTICK = sys.argv[1:3]
ROUNDS = 3


def peak(program, seed, lines):
    """The peak memory of one run, in MiB. (What a process has before it begins a program counts too, so a small one begins it.)"""
    words = ["/usr/bin/time", "-f", "%M", program, "drill", str(seed), str(lines)]
    ran = subprocess.run(words, stdout=subprocess.DEVNULL, stderr=subprocess.PIPE, check=True)
    return int(ran.stderr.split()[-1]) / 1024


def run(program, seed, lines):
    """The seconds of user time of one run, and what it printed."""
    read, write = os.pipe()
    child = os.fork()
    if child == 0:
        os.dup2(write, 1)
        os.close(read)
        os.execv(program, [program, "drill", str(seed), str(lines)])
    os.close(write)
    with os.fdopen(read) as printed:
        text = printed.read().strip()
    _, status, used = os.wait4(child, 0)
    if status != 0:
        sys.exit(f"{program} drill {seed} {lines}: status {status}: {text}")
    return used.ru_utime, text


def best(program, seed, lines):
    """The least time of a few runs, the peak memory of one, and what all of them printed."""
    runs = [run(program, seed, lines) for _ in range(ROUNDS)]
    if len({text for _, text in runs}) != 1:
        sys.exit(f"{program} drill {seed} {lines} prints two things")
    return min(time for time, _ in runs), peak(program, seed, lines), runs[0][1]


print(f"{'seed':>4} {'lines':>6} {'user s':>8} {'theirs':>8} {'ratio':>6} {'MiB':>7} {'theirs':>7} {'ratio':>6}")
texts = []
for lines in (2000, 10000):
    for seed in (7, 1, 2):
        time, memory, text = best(PROGRAM, seed, lines)
        their_time, their_memory, their_text = best(YARDSTICK, seed, lines)
        ratio = time / their_time if their_time else float("inf")
        print(f"{seed:4} {lines:6} {time:8.3f} {their_time:8.3f} {ratio:6.1f} {memory:7.1f} {their_memory:7.1f} {memory / their_memory:6.1f}")
        texts.append((text, their_text))
for text, their_text in texts:
    print(text)
    if text.split(", looks")[0] != their_text.split(", looks")[0]:
        print(f"  not so the other program: {their_text}")
PYTHON
