#!/usr/bin/env bash
# Kills evenings with a log on a real file, at random moments (SIGKILL), and looks at what they left. A kill isn't a loss of power: what was
# written stays in the system's memory, so this tries the order of the program's calls and no disk.
#   bench/kill.sh [PROGRAM [KILLS]]
# PROGRAM is crates/tabletop/out/tabletop unless given. KILLS of each part are killed, 100 unless given: scripts that are played, and servers of a
# game master and four players over TCP; PARTS=play or PARTS=serve tries one part alone. SEED=N draws other moments and other lines, FOLDER=PATH
# has the logs instead of a new folder beside the system's other temporary ones. It needs Python 3.9 or later and takes some minutes.
# The log is read by the format of docs/PROTOCOL.md, and by nothing of the program. Checked are, of each script that was killed:
#   - what came out is a front of what the whole run prints;
#   - the log is the campaign's, and its entries are the first of the whole run's; each entry of whose lines a byte came out is there;
#   - started again with nothing to play, the program ends with status 0 and prints nothing; the log has these entries, and then a Leave of each
#     seat that was there, in ascending order;
#   - where the log wasn't made whole, nothing came out, and the program says so (status 11), or makes it anew where it is empty.
# And of each server that was killed:
#   - the log is the campaign's; the lines that it has of each seat are the first that this client sent, and nobody left;
#   - what each client got, to its last byte, is a front of what the log's entries come to, as `verify` and `play` say without a log;
#   - started again by the same words, it sends the clients that return what `play` sends them with a copy of that log: their books, with counts
#     that go on, what is said then, and the whole campaign; its last line is the campaign that `play` writes;
#   - in the end the log has its entries, a Leave of each seat that was there, and then what followed, and comes to that campaign;
#   - where the log wasn't made whole, nobody got a byte, and the program says so, or makes it anew where it is empty.
set -eu
bench=$(cd "$(dirname "$0")" && pwd)
program=${1:-$bench/../crates/tabletop/out/tabletop}
kills=${2:-${KILLS:-100}}
if [ ! -x "$program" ]; then
    echo "bench/kill.sh: no program at $program; ./tabletop builds it" >&2
    exit 2
fi
status=0
for part in ${PARTS:-play serve}; do
    python3 -B "$bench/kill_$part.py" "$program" "$kills" || status=1
done
exit "$status"
