// What a player's tokens see, worked out from what the game master's page knows: a preview alone. What players
// are shown the server decides, and a test compares the two. The rules stand in docs/PROTOCOL.md, "Sight".

/** On which side of the line from a to b a point lies: its sign, 0 on the line. */
function side(ax, ay, bx, by, x, y) {
  return Math.sign((bx - ax) * (y - ay) - (by - ay) * (x - ax));
}

function isBetween(ax, ay, bx, by, x, y) {
  return Math.min(ax, bx) <= x && x <= Math.max(ax, bx) && Math.min(ay, by) <= y && y <= Math.max(ay, by);
}

/** Whether a wall and the segment from a to b meet, ends included. */
export function meet([px, py, qx, qy], ax, ay, bx, by) {
  if (Math.max(px, qx) < Math.min(ax, bx) || Math.max(ax, bx) < Math.min(px, qx)) return false;
  if (Math.max(py, qy) < Math.min(ay, by) || Math.max(ay, by) < Math.min(py, qy)) return false;
  const [a, b] = [side(px, py, qx, qy, ax, ay), side(px, py, qx, qy, bx, by)];
  const [p, q] = [side(ax, ay, bx, by, px, py), side(ax, ay, bx, by, qx, qy)];
  if (a * b < 0 && p * q < 0) return true;
  if (a === 0 && isBetween(px, py, qx, qy, ax, ay)) return true;
  if (b === 0 && isBetween(px, py, qx, qy, bx, by)) return true;
  if (p === 0 && isBetween(ax, ay, bx, by, px, py)) return true;
  return q === 0 && isBetween(ax, ay, bx, by, qx, qy);
}

/** The middle of a token's square, in half cells. */
function eyeOf({ cell: [x, y], size }) {
  return [2 * x + size, 2 * y + size];
}

function isWithin([ex, ey], reach, x, y) {
  return (2 * x + 1 - ex) ** 2 + (2 * y + 1 - ey) ** 2 <= reach * reach;
}

function isNear([ex, ey], reach, [ax, ay, bx, by]) {
  const across = Math.max(ax, bx) >= ex - reach && Math.min(ax, bx) <= ex + reach;
  return across && Math.max(ay, by) >= ey - reach && Math.min(ay, by) <= ey + reach;
}

/** Whether a cell is clear from an eye and its centre within so many half cells, as a test that remembers. */
function clearFrom(eye, reach, walls) {
  const near = walls.filter((wall) => isNear(eye, reach, wall));
  const [ex, ey] = eye;
  const known = new Map();
  const isClear = (x, y) => {
    const [cx, cy] = [2 * x + 1, 2 * y + 1];
    if (!isWithin(eye, reach, x, y)) return false;
    return (cx === ex && cy === ey) || !near.some((wall) => meet(wall, ex, ey, cx, cy));
  };
  return (x, y) => {
    const key = (y << 8) | x;
    if (!known.has(key)) known.set(key, isClear(x, y));
    return known.get(key);
  };
}

/**
 * Whether a token of that sight sees a cell, by the map's mode. `lamps` are eyes and radii, of a darkness a
 * negative one.
 */
function sightOf(eye, [range, night, mult], mode, walls, lamps) {
  if (mode === "off") return () => true;
  const clear = clearFrom(eye, 2 * range, walls);
  if (mode === "day") return clear;
  const lights = lamps.filter(([, radius]) => radius > 0);
  const lit = lights.map(([lamp, radius]) => clearFrom(lamp, radius * mult, walls));
  const darknesses = lamps.filter(([, radius]) => radius < 0);
  const dark = darknesses.map(([lamp, radius]) => clearFrom(lamp, -radius * 2, walls));
  const isLit = (x, y) => lit.some((reaches) => reaches(x, y)) && !dark.some((reaches) => reaches(x, y));
  const isBright = (x, y) => isWithin(eye, 2 * night, x, y) || isLit(x, y);
  return (x, y) => clear(x, y) && isBright(x, y);
}

/**
 * The cells of a map that a player's tokens see, as if the map were shown.
 * @param {number} seat
 * @param {import("./view.js").Grid} grid
 * @param {import("./walls.js").WallsOfMap} walls
 * @param {import("./view.js").View} view
 * @returns {Uint8Array} 1 for each cell that is seen
 */
export function seenBy(seat, grid, walls, view) {
  const here = view.onMap(grid.name).filter(({ layer }) => layer !== "hidden");
  const lamps = here.filter(({ light }) => light !== null);
  const lights = lamps.map((token) => [eyeOf(token), view.lights[token.light]]);
  const blocking = [...walls.vbl.values()];
  const seen = new Uint8Array(grid.w * grid.h);
  for (const token of here.filter(({ owners, sight }) => owners.includes(seat) && sight !== null)) {
    const sees = sightOf(eyeOf(token), view.sights[token.sight], grid.mode, blocking, lights);
    for (let at = 0; at < seen.length; at++)
      if (!seen[at] && sees(at % grid.w, Math.floor(at / grid.w))) seen[at] = 1;
  }
  return seen;
}
