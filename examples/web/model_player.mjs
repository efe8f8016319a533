// Plays lines with the page's model, for test_model.py: each line of standard input is a job in JSON, and its
// answer a line of standard output.
import assert from "node:assert/strict";
import { createInterface } from "node:readline";
import { Seat } from "./page/seat.js";
import { seenBy } from "./page/sight.js";
import { tokenWords } from "./page/view.js";

function shownMap(grid) {
  return {
    mode: grid.mode,
    shown: grid.shown,
    w: grid.w,
    h: grid.h,
    seen: [...grid.seen.keys()].filter((at) => grid.seen[at]),
    letters: [...grid.letters].map((code) => (code ? String.fromCharCode(code) : " ")).join(""),
  };
}

function shown(view) {
  const maps = Object.fromEntries([...view.maps].map(([name, grid]) => [name, shownMap(grid)]));
  const tokens = Object.fromEntries([...view.tokens].map(([id, token]) => [id, tokenWords(token)]));
  return { maps, tokens, lights: view.lights, sights: view.sights, fight: view.fight };
}

function wordsOf(event) {
  if (event.kind === "message") return [event.words];
  if (event.kind === "refused") return [`refused (${event.name})`];
  const isStopped = event.kind === "moved" && event.moved < event.of;
  return isStopped ? [`stopped after ${event.moved} of ${event.of} steps`] : [];
}

function wallsOf({ walls }) {
  const names = (kind) => [...kind.keys()].sort();
  const maps = [...walls.maps].map(([map, { vbl, mbl }]) => [map, names(vbl), names(mbl)]);
  return maps.filter(([, vbl, mbl]) => vbl.length + mbl.length).sort();
}

/** What is shown and said after each of a seat's lines. Walls that were kept line by line are those of a dump. */
function told({ number, lines, sent }) {
  const seat = new Seat(number);
  seat.sent.push(...sent);
  return lines.map((line) => {
    const kept = line.startsWith('{"dump":') && seat.walls ? wallsOf(seat) : null;
    const said = seat.take(line).flatMap(wordsOf);
    if (kept) assert.deepEqual(kept, wallsOf(seat));
    return { said, view: shown(seat.view), ended: seat.ended };
  });
}

/**
 * All seats' lines as `play` prints them, with a mark of the game master's behind each line of the script:
 * what the players see by the server, and by the game master's page. Gives how many maps were compared, and of
 * how many some cells were seen and others not.
 */
function compared({ printed, sent }) {
  const seats = sent.map((commands, number) => {
    const seat = new Seat(number);
    seat.sent.push(...commands);
    return seat;
  });
  const [gm, ...players] = seats;
  const counts = [0, 0];
  const compare = (grid, player) => {
    const seen = seenBy(player.number, grid, gm.walls.of(grid.name), gm.view);
    const { seen: wanted } = player.view.maps.get(grid.name);
    assert.deepEqual([...seen], [...wanted], `seat ${player.number} ${grid.name}`);
    counts[0] += 1;
    counts[1] += seen.includes(1) && seen.includes(0) ? 1 : 0;
  };
  for (const text of printed) {
    const [number, line] = text.split("\t");
    seats[number].take(line);
    if (!line.startsWith('{"from":0,"text":"#') || !gm.walls) continue;
    for (const grid of gm.view.maps.values())
      players.filter(({ view }) => view.maps.has(grid.name)).forEach((player) => compare(grid, player));
  }
  return counts;
}

for await (const line of createInterface({ input: process.stdin })) {
  const job = JSON.parse(line);
  process.stdout.write(`${JSON.stringify(job.printed ? compared(job) : told(job))}\n`);
}
