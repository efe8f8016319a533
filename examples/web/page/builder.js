// Walls and doors, as the game master draws them. The server knows no doors: an open one is a wall taken
// away, and this browser remembers where it stood.
import { choice } from "./dom.js";
import { GAME_MASTER } from "./protocol.js";
import { kept } from "./storage.js";
import { KINDS_OF_WALL, around, wallOf } from "./walls.js";

const BLOCKS = [
  ["both", "sight and movement"],
  ["vbl", "sight only"],
  ["mbl", "movement only"],
];
const SHAPES = [
  ["line", "a line"],
  ["room", "a room"],
];
const STEPS = [
  ["2", "from corner to corner"],
  ["1", "by half cells"],
];

export class Builder {
  constructor(table) {
    this.table = table;
    this.blocks = choice(BLOCKS, "both", null, { "aria-label": "What the wall blocks" });
    this.shape = choice(SHAPES, "line", null, { "aria-label": "Shape" });
    this.snap = choice(STEPS, "2", null, { "aria-label": "Where ends lie" });
    this.options = [this.blocks, this.shape, this.snap];
    this.store = kept("doors", GAME_MASTER);
    this.doors = new Map((this.store.read() ?? []).map((door) => [keyOf(door.map, door.wall), door]));
  }

  step() {
    return Number(this.snap.value);
  }

  /** The walls of the map that is shown; none before the dump has come. */
  #walls() {
    return this.table.seat.walls?.of(this.table.mapName()) ?? { vbl: new Map(), mbl: new Map() };
  }

  #kindsOf(wall) {
    const walls = this.#walls();
    return KINDS_OF_WALL.filter((kind) => walls[kind].has(wall.join()));
  }

  #send(command, kind, wall) {
    const ends = { a: wall.slice(0, 2), b: wall.slice(2) };
    this.table.send({ do: command, map: this.table.mapName(), kind, ...ends });
  }

  // ---- walls
  /** A wall from a to b, or the four of a room between these corners; what is there already isn't sent. */
  wall(a, b) {
    const kinds = this.blocks.value === "both" ? KINDS_OF_WALL : [this.blocks.value];
    const [aside, below] = [[b[0], a[1]], [a[0], b[1]]]; // prettier-ignore
    const room = [[a, aside], [aside, b], [b, below], [below, a]]; // prettier-ignore
    for (const [from, to] of this.shape.value === "room" ? room : [[a, b]]) {
      if (from.join() === to.join()) continue;
      const wall = wallOf(from, to);
      const there = this.#kindsOf(wall);
      for (const kind of kinds) if (!there.includes(kind)) this.#send("wall", kind, wall);
    }
  }

  /** Takes away the wall near a place of the window, and its door. */
  erase(x, y) {
    const wall = this.#near(x, y);
    if (!wall) return;
    for (const kind of this.#kindsOf(wall)) this.#send("unwall", kind, wall);
    if (this.doors.delete(keyOf(this.table.mapName(), wall))) this.#keep();
    this.table.refresh();
  }

  #near(x, y) {
    const wall = this.table.board.wallAt(x, y);
    if (!wall) this.table.tell("no wall is near");
    return wall;
  }

  // ---- doors
  /** A click opens or shuts the wall that is near; a drag along a wall makes that piece a wall of its own. */
  door(from, to) {
    if (from.point.join() === to.point.join()) this.#turn(from);
    else this.#cut(from.point, to.point);
  }

  #turn({ x, y }) {
    const wall = this.#near(x, y);
    if (!wall) return;
    const kinds = this.#kindsOf(wall);
    this.#remember(wall);
    if (kinds.length) kinds.forEach((kind) => this.#send("unwall", kind, wall));
    else KINDS_OF_WALL.forEach((kind) => this.#send("wall", kind, wall));
  }

  #cut(a, b) {
    const piece = wallOf(a, b);
    let isCut = false;
    for (const kind of KINDS_OF_WALL)
      for (const wall of [...this.#walls()[kind].values()])
        isCut = this.#cutOut(kind, wall, piece, around(wall, a, b)) || isCut;
    if (isCut) this.#remember(piece);
    else this.table.note("a door is dragged along a wall, from one point of it to another", "event");
  }

  /** The pieces are put before the whole is taken away, so that nobody looks through meanwhile. */
  #cutOut(kind, wall, piece, rests) {
    if (!rests) return false;
    const there = this.#walls()[kind];
    for (const part of [piece, ...rests]) if (!there.has(part.join())) this.#send("wall", kind, part);
    if (wall.join() !== piece.join()) this.#send("unwall", kind, wall);
    return true;
  }

  #remember(wall) {
    const map = this.table.mapName();
    this.doors.set(keyOf(map, wall), { map, wall });
    this.#keep();
  }

  #keep() {
    this.store.write([...this.doors.values()]);
  }

  openDoors(map) {
    const shut = this.#walls().vbl;
    const here = [...this.doors.values()].filter((door) => door.map === map);
    return here.map(({ wall }) => wall).filter((wall) => !shut.has(wall.join()));
  }
}

function keyOf(map, wall) {
  return `${map} ${wall}`;
}
