// Walls and trails, which only the game master's page knows: by a dump, and from then on by its own lines.

/**
 * @typedef {[number, number]} Point of half cells
 * @typedef {[number, number, number, number]} Wall its two ends, the lesser one first, as in a campaign's text
 * @typedef {{vbl: Map<string, Wall>, mbl: Map<string, Wall>}} WallsOfMap those that block sight, and movement
 */

export const KINDS_OF_WALL = ["vbl", "mbl"];

/** The wall between two points. */
export function wallOf([ax, ay], [bx, by]) {
  return ax < bx || (ax === bx && ay <= by) ? [ax, ay, bx, by] : [bx, by, ax, ay];
}

/** The walls of all maps, and which maps have a trail. */
export class Walls {
  /** @type {Map<string, WallsOfMap>} */
  maps = new Map();
  /** @type {Set<string>} */
  trails = new Set();

  constructor(dump) {
    for (const map of dump.maps) {
      this.takeTrail({ map: map.name, on: map.trail });
      for (const kind of KINDS_OF_WALL)
        for (const wall of map[kind]) this.of(map.name)[kind].set(wall.join(), wall);
    }
  }

  of(name) {
    if (!this.maps.has(name)) this.maps.set(name, { vbl: new Map(), mbl: new Map() });
    return this.maps.get(name);
  }

  /** Takes in a command `wall` or `unwall` that was carried out. */
  take({ do: command, map, kind, a, b }) {
    const wall = wallOf(a, b);
    if (command === "wall") this.of(map)[kind].set(wall.join(), wall);
    else this.of(map)[kind].delete(wall.join());
  }

  /** Takes in a command `trail` that was carried out. */
  takeTrail({ map, on }) {
    if (on) this.trails.add(map);
    else this.trails.delete(map);
  }
}

/** How far a point is from a segment, in the segment's units. */
export function distance([px, py], [ax, ay, bx, by]) {
  const [dx, dy] = [bx - ax, by - ay];
  const along = ((px - ax) * dx + (py - ay) * dy) / (dx * dx + dy * dy);
  const near = Math.max(0, Math.min(1, along));
  return Math.hypot(ax + near * dx - px, ay + near * dy - py);
}

/**
 * What is left of a wall before and behind its piece from a to b; none where the piece isn't on it.
 * @returns {?Wall[]}
 */
export function around([ax, ay, bx, by], a, b) {
  const [dx, dy] = [bx - ax, by - ay];
  const isOn = ([x, y]) => (x - ax) * dy === (y - ay) * dx;
  const along = ([x, y]) => (x - ax) * dx + (y - ay) * dy;
  const [first, last] = [a, b].sort((one, other) => along(one) - along(other));
  const fits = isOn(a) && isOn(b) && along(first) >= 0 && along(last) <= dx * dx + dy * dy;
  if (!fits || along(first) === along(last)) return null;
  const rests = [[[ax, ay], first], [last, [bx, by]]]; // prettier-ignore
  return rests.filter(([from, to]) => from.join() !== to.join()).map(([from, to]) => wallOf(from, to));
}
