// The page's parts that need no page: ways, walls, sight, undoing, lines. `node --test test_parts.mjs`
import assert from "node:assert/strict";
import { test } from "node:test";
import { rectOf, straightPath, wayWords } from "./page/geometry.js";
import { Seat } from "./page/seat.js";
import { meet, seenBy } from "./page/sight.js";
import { inverse } from "./page/undo.js";
import { View } from "./page/view.js";
import { Walls, around, distance, wallOf } from "./page/walls.js";

test("a straight way goes by king's steps to its end, never further than half a cell from the line", () => {
  for (let x = -70; x <= 70; x++)
    for (let y = -70; y <= 70; y++) {
      const many = Math.max(Math.abs(x), Math.abs(y));
      const path = straightPath([0, 0], [x, y]);
      let here = [0, 0];
      path.forEach(([toX, toY], at) => {
        const isStep = Math.max(Math.abs(toX - here[0]), Math.abs(toY - here[1])) === 1;
        const far = (to, end) => Math.abs(to - (end * (at + 1)) / many);
        if (!isStep || far(toX, x) > 0.5 || far(toY, y) > 0.5) assert.fail(`${x},${y}: ${toX},${toY}`);
        here = [toX, toY];
      });
      assert.equal(path.length, Math.min(64, many));
      if (many <= 64 && many > 0) assert.deepEqual([here[0] + 0, here[1] + 0], [x, y]);
    }
});

test("rectangles and ways in words", () => {
  assert.deepEqual(rectOf([3, 1], [1, 5]), [1, 1, 3, 5]);
  assert.equal(wayWords([3, 3], [1, 4]), "2 west, 1 south");
  assert.equal(wayWords([3, 3], [3, 3]), "here");
});

test("walls are kept with the lesser end first", () => {
  const walls = [wallOf([2, 3], [2, 1]), wallOf([0, 9], [1, 0]), wallOf([1, 0], [0, 9])];
  assert.deepEqual(walls, [[2, 1, 2, 3], [0, 9, 1, 0], [0, 9, 1, 0]]); // prettier-ignore
  const kept = new Walls({ maps: [{ name: "m", vbl: [[0, 0, 2, 0]], mbl: [] }] });
  kept.take({ do: "wall", map: "m", kind: "mbl", a: [4, 0], b: [2, 0] });
  kept.take({ do: "unwall", map: "m", kind: "vbl", a: [2, 0], b: [0, 0] });
  kept.takeTrail({ do: "trail", map: "m", on: true });
  assert.ok(kept.trails.has("m"));
  assert.deepEqual([...kept.of("m").vbl.keys()], []);
  assert.deepEqual([...kept.of("m").mbl.keys()], ["2,0,4,0"]);
});

test("what is left around a piece of a wall", () => {
  assert.deepEqual(around([0, 0, 8, 0], [4, 0], [2, 0]), [[0, 0, 2, 0], [4, 0, 8, 0]]); // prettier-ignore
  assert.deepEqual(around([0, 0, 8, 0], [0, 0], [2, 0]), [[2, 0, 8, 0]]);
  assert.deepEqual(around([0, 0, 8, 4], [2, 1], [4, 2]), [[0, 0, 2, 1], [4, 2, 8, 4]]); // prettier-ignore
  assert.deepEqual(around([0, 0, 8, 0], [8, 0], [0, 0]), []);
  const others = [[[2, 0], [2, 0]], [[2, 0], [10, 0]], [[-1, 0], [2, 0]], [[2, 1], [4, 1]]]; // prettier-ignore
  for (const [a, b] of others) assert.equal(around([0, 0, 8, 0], a, b), null);
});

test("how far a point is from a wall", () => {
  assert.equal(distance([4, 3], [0, 0, 8, 0]), 3);
  assert.equal(distance([11, 4], [0, 0, 8, 0]), 5);
});

/** Whether two segments have a point in common: an end of one, or where their lines cross, as a fraction. */
function meetByDefinition([a, b], [p, q]) {
  const isOn = ([x, y], many, [[ux, uy], [vx, vy]]) => {
    // the point (x / many, y / many), many > 0
    if ((vx - ux) * (y - uy * many) !== (vy - uy) * (x - ux * many)) return false;
    const isIn = (at, one, other) => Math.min(one, other) * many <= at && at <= Math.max(one, other) * many;
    return isIn(x, ux, vx) && isIn(y, uy, vy);
  };
  if (isOn(a, 1, [p, q]) || isOn(b, 1, [p, q]) || isOn(p, 1, [a, b]) || isOn(q, 1, [a, b])) return true;
  const [ux, uy, vx, vy] = [b[0] - a[0], b[1] - a[1], q[0] - p[0], q[1] - p[1]];
  const many = ux * vy - uy * vx;
  if (many === 0) return false;
  const along = (p[0] - a[0]) * vy - (p[1] - a[1]) * vx;
  const sign = Math.sign(many);
  const crossing = [a[0] * many + along * ux, a[1] * many + along * uy].map((at) => at * sign);
  return isOn(crossing, many * sign, [a, b]) && isOn(crossing, many * sign, [p, q]);
}

test("segments meet as by the definition, all between few points", () => {
  const points = [0, 1, 2, 3].flatMap((x) => [0, 1, 2].map((y) => [x, y]));
  const segments = points.flatMap((from) => points.map((to) => [from, to]));
  for (const wall of segments)
    for (const [a, b] of segments)
      assert.equal(meet(wall.flat(), ...a, ...b), meetByDefinition([a, b], wall), `${wall} ${a} ${b}`);
});

test("a darkness puts out a lamp's light, but for one on the layer hidden, and hinders no sight", () => {
  const grid = { name: "m", w: 12, h: 1, mode: "night" };
  const token = { map: "m", size: 1, layer: "token", owners: [], sight: null };
  const ann = { ...token, cell: [0, 0], light: "lamp", owners: [1], sight: "keen" };
  const stone = { ...token, cell: [9, 0], light: "murk" };
  const walls = { vbl: new Map(), mbl: new Map() };
  const seen = (layer, night, mode) => {
    const tokens = [ann, { ...stone, layer }];
    const view = { lights: { lamp: 5, murk: -2 }, sights: { keen: [40, night, 4] }, onMap: () => tokens };
    return [...seenBy(1, { ...grid, mode }, walls, view)].join("");
  };
  assert.equal(seen("token", 0, "night"), "111111100000");
  assert.equal(seen("hidden", 0, "night"), "111111111110");
  assert.equal(seen("object", 8, "night"), "111111111000");
  assert.equal(seen("token", 0, "day"), "111111111111");
});

test("a dump is kept as it came, with numbers that are past 2^53", () => {
  const gm = new Seat(0);
  gm.put({ do: "dump" });
  gm.joined = true;
  const key = '"a\\",\\"n\\":7"';
  const seat = `{"drawn":4611686018427387903,"fog":{},"key":${key},"macros":{},"seed":"0","tags":[]}`;
  const campaign = `{"format":1,"lights":{},"maps":[],"seats":[${seat}]}`;
  assert.equal(gm.take(`{"dump":${campaign},"n":2,"ok":"dump"}`)[0].text, campaign);
});

test("a line that is too long isn't sent", () => {
  const seat = new Seat(1);
  assert.throws(() => seat.put({ do: "say", text: "ä".repeat(2048) }), RangeError);
  assert.equal(seat.sent.length, 0);
});

const MAP = {
  ground: [[0, 0, "ab"]], h: 1, mode: "day", name: "m", seen: [[0, 0, 1]], shown: true, w: 2,
}; // prettier-ignore
const TOKEN = {
  id: "0:a", name: "A", map: "m", cell: [1, 0], size: 1, layer: "token", props: [["x", "1"]],
  own: [], sight: null, light: "l", owners: [1], secret: [], visible: true,
}; // prettier-ignore

test("who has got the turn is told once", () => {
  const seat = new Seat(1);
  const told = (fight) => {
    const [{ turn }] = seat.take(JSON.stringify({ change: { fight } }));
    return turn?.id ?? null;
  };
  seat.take(JSON.stringify({ full: { lights: {}, maps: [MAP], sights: {}, tokens: [TOKEN] } }));
  const list = [["0:a", 4]];
  assert.equal(told({ list, round: 0, turn: null }), null);
  assert.equal(told({ list, round: 1, turn: "0:a" }), "0:a");
  assert.equal(told({ list: [["0:a", 5]], round: 1, turn: "0:a" }), null);
  assert.equal(told({ list, round: 2, turn: "0:a" }), "0:a");
  assert.equal(told(null), null);
  assert.equal(seat.ended, null);
});

test("what undoes a command", () => {
  const fight = { list: [["0:a", 4]], round: 0, turn: null };
  const tokens = [TOKEN, { ...TOKEN, id: "0:b" }];
  const view = View.read({ lights: {}, maps: [MAP], sights: {}, tokens, fight });
  const token = { token: "0:a" };
  const terrain = { do: "terrain", map: "m" };
  const pairs = [
    [{ do: "layer", ...token, layer: "hidden" }, [{ do: "layer", ...token, layer: "token" }]],
    [{ do: "own", ...token, seat: 1, on: false }, [{ do: "own", ...token, seat: 1, on: true }]],
    [{ do: "own", ...token, seat: 1, on: true }, [{ do: "own", ...token, seat: 1, on: true }]],
    [{ do: "move", ...token, path: [[0, 0]] }, [{ do: "place", ...token, map: "m", cell: [1, 0] }]],
    [{ do: "setprop", ...token, class: "public", name: "y", value: "" }, null],
    [{ do: "init", ...token, value: 9 }, [{ do: "init", ...token, value: 4 }]],
    [{ do: "init", token: "0:b", value: 9 }, [{ do: "uninit", token: "0:b" }]],
    [{ do: "uninit", ...token }, [{ do: "init", ...token, value: 4 }]],
    [{ do: "turn" }, null],
    [{ do: "expose", seat: 1, map: "m", rect: [0, 0, 1, 1] }, null],
    [
      { ...terrain, rect: [0, 0, 2, 1], kind: "z" },
      [{ ...terrain, rect: [0, 0, 1, 1], kind: "a" }, { ...terrain, rect: [1, 0, 1, 1], kind: "b" }],
    ],
  ]; // prettier-ignore
  for (const [command, back] of pairs) assert.deepEqual(inverse(command, view), back);
});
