// What a seat is shown: maps and tokens, kept by full and change lines; docs/PROTOCOL.md, "Views".
// Nothing here is trusted: what wasn't sent isn't known.
import { Unreadable, part, printable } from "./protocol.js";

/**
 * @typedef {[number, number]} Cell column and row
 * @typedef {[number, number, number]} Run a row, its first column and its last
 * @typedef {[string, string]} Property name and value
 *
 * A token as it was sent. `own`, `sight` and `light` come with those that the seat may act on; `owners`,
 * `secret` and `visible` to the game master alone.
 * @typedef {object} Token
 * @property {string} id the seat that made it, a colon, and its tag
 * @property {string} name
 * @property {string} map
 * @property {Cell} cell
 * @property {number} size
 * @property {string} layer
 * @property {Property[]} props
 * @property {Property[]} [own]
 * @property {Property[]} [secret]
 * @property {?string} [sight]
 * @property {?string} [light]
 * @property {number[]} [owners]
 * @property {boolean} [visible]
 *
 * A seat's part of a fight: an id and a value for each entry, in order, the round, and whose turn it is, as far
 * as that is shown.
 * @typedef {{list: [string, number][], round: number, turn: ?string}} Fight
 */

export const LAYERS = ["background", "object", "hidden", "token"]; // as drawn, the last on top
const LONGEST_SIDE = 96; // cells of a map
const [DOT, A, Z] = [46, 97, 122]; // the codes of the letters of ground: . and a to z

/** A map: which cells are seen now, and the letters of those that are exposed (0 where one isn't). */
export class Grid {
  changes = 0; // how often it was changed, for those who keep a picture of it

  constructor(line) {
    [this.w, this.h] = [part(line, "w", "int"), part(line, "h", "int")];
    [this.name, this.mode] = [part(line, "name", "str"), part(line, "mode", "str")];
    const fits = (side) => side >= 1 && side <= LONGEST_SIDE;
    if (!fits(this.w) || !fits(this.h)) throw new Unreadable("a map is off its limits");
    this.shown = line.shown ?? null; // sent to the game master alone
    this.seen = new Uint8Array(this.w * this.h);
    this.letters = new Uint8Array(this.w * this.h);
    this.apply({ lit: part(line, "seen", "list"), ground: part(line, "ground", "list") });
  }

  /** Takes in the part of a change line that speaks of this map. */
  apply(change) {
    this.changes += 1;
    this.mode = change.mode ?? this.mode;
    this.shown = change.shown ?? this.shown;
    for (const run of change.lit ?? []) this.seen.fill(1, ...this.#ends(run));
    for (const run of change.dark ?? []) this.seen.fill(0, ...this.#ends(run));
    for (const [y, x, letters] of change.ground ?? []) this.#expose(y, x, letters);
    for (const run of change.hidden ?? []) this.#hide(run);
  }

  #expose(y, x, letters) {
    const [first] = this.#ends([y, x, x + letters.length - 1]);
    for (let place = 0; place < letters.length; place++) {
      const letter = letters.charCodeAt(place);
      if (letter !== DOT && (letter < A || letter > Z)) throw new Unreadable("a letter is none");
      this.letters[first + place] = letter;
    }
  }

  #hide(run) {
    const [first, end] = this.#ends(run);
    if (this.letters.subarray(first, end).includes(0))
      throw new Unreadable("a cell that goes wasn't shown before");
    this.letters.fill(0, first, end);
  }

  /** Where a run begins and ends among the cells. */
  #ends([y, x0, x1]) {
    const whole = [y, x0, x1].every(Number.isInteger);
    if (!whole || !this.has([x0, y]) || !this.has([x1, y]) || x0 > x1)
      throw new Unreadable("a run isn't on its map");
    return [y * this.w + x0, y * this.w + x1 + 1];
  }

  /** @param {Cell} cell */
  has([x, y]) {
    return x >= 0 && y >= 0 && x < this.w && y < this.h;
  }

  /** The letter of a cell; none where it isn't exposed. */
  letter([x, y]) {
    const code = this.letters[y * this.w + x];
    return code ? String.fromCharCode(code) : null;
  }

  title() {
    const kept = this.shown === false ? ", not shown" : "";
    return `${this.name}, ${this.w} by ${this.h}, ${this.mode}${kept}`;
  }
}

const PARTS_OF_TOKEN = {
  id: "str", name: "str", map: "str", layer: "str", size: "int", props: "list", cell: "list",
}; // prettier-ignore

function tokenOf(line, maps) {
  for (const [key, kind] of Object.entries(PARTS_OF_TOKEN)) part(line, key, kind);
  if (!LAYERS.includes(line.layer)) throw new Unreadable("a token has a layer that is none");
  const grid = maps.get(line.map);
  const [x, y] = line.cell;
  const far = line.size - 1;
  const whole = Number.isInteger(x) && Number.isInteger(y);
  if (!grid || !whole || !grid.has([x, y]) || !grid.has([x + far, y + far]))
    throw new Unreadable("a token isn't on its map");
  return { ...line, cell: [x, y] };
}

/** @returns {Fight} */
function fightOf(line) {
  const { turn } = line;
  const list = part(line, "list", "list");
  if (!list.every(([, value]) => Number.isInteger(value))) throw new Unreadable("a value is no number");
  if (turn !== null && !list.some(([id]) => id === turn)) throw new Unreadable("the turn is that of no entry");
  return { list, round: part(line, "round", "int"), turn };
}

/** Takes a key out of a map, where it has to be. */
function drop(map, key, what) {
  if (!map.delete(key)) throw new Unreadable(`a ${what} that goes wasn't shown before`);
}

/** All that a seat is shown. */
export class View {
  /** @type {Map<string, Grid>} */
  maps = new Map();
  /** @type {Map<string, Token>} */
  tokens = new Map();
  lights = {}; // a radius for each name, of a darkness a negative one
  sights = {}; // [range, night, mult] for each name
  /** @type {?Fight} */
  fight = null;

  /** The view of a full line. */
  static read(line) {
    const view = new View();
    view.apply({
      lights: part(line, "lights", "object"),
      sights: part(line, "sights", "object"),
      maps: part(line, "maps", "list"),
      tokens: part(line, "tokens", "list"),
      fight: line.fight ?? null,
    });
    return view;
  }

  /** Takes in a change line. What it changes or takes away has to be there. */
  apply(change) {
    for (const name of change.unmapped ?? []) drop(this.maps, name, "map");
    for (const id of change.gone ?? []) drop(this.tokens, id, "token");
    for (const parts of change.changed ?? []) {
      const grid = this.maps.get(parts.name);
      if (!grid) throw new Unreadable("a map that changes wasn't shown before");
      grid.apply(parts);
    }
    for (const line of change.maps ?? []) this.maps.set(line.name, new Grid(line));
    for (const line of change.tokens ?? []) this.tokens.set(line.id, tokenOf(line, this.maps));
    this.lights = { ...this.lights, ...change.lights };
    this.sights = { ...this.sights, ...change.sights };
    if ("fight" in change) this.fight = change.fight && fightOf(change.fight);
    if (this.fight?.list.some(([id]) => !this.tokens.has(id)))
      throw new Unreadable("an entry of the fight is that of no token");
  }

  /** The value of a token's entry in the fight; none where it has none. */
  valueOf(id) {
    return this.fight?.list.find(([own]) => own === id)?.[1] ?? null;
  }

  mapNames() {
    return [...this.maps.keys()].sort();
  }

  /** The tokens of a map, by id. */
  onMap(name) {
    return this.inOrder().filter((token) => token.map === name);
  }

  /** All tokens, by id. */
  inOrder() {
    return [...this.tokens.values()].sort(byId);
  }
}

/** The order of ids: maker, then tag. */
function byId(one, other) {
  const [[makerA, tagA], [makerB, tagB]] = [one.id.split(":"), other.id.split(":")];
  return Number(makerA) - Number(makerB) || (tagA < tagB ? -1 : tagA > tagB ? 1 : 0);
}

/** The order in which tokens are drawn: layers upwards, own ones over others. */
export function byLayer(one, other) {
  const layers = LAYERS.indexOf(one.layer) - LAYERS.indexOf(other.layer);
  return layers || Number(mayAct(one)) - Number(mayAct(other));
}

/** Whether the seat that was sent the token may act on it. */
export function mayAct(token) {
  return "own" in token;
}

/** Whether it is kept from players; only the game master is told. */
export function isKept(token) {
  return token.layer === "hidden" || token.visible === false;
}

export function covers({ cell: [left, top], size }, [x, y]) {
  return left <= x && x < left + size && top <= y && y < top + size;
}

/** The token in words: all that was sent of it. */
export function tokenWords(token) {
  const words = [`${printable(token.name)} ${token.id} at ${token.cell[0]},${token.cell[1]}`];
  if (token.size > 1) words.push(`size ${token.size}`);
  if (token.layer !== "token") words.push(`layer ${token.layer}`);
  if (token.visible === false) words.push("not visible");
  words.push(...(token.owners ?? []).map((owner) => `owner ${owner}`));
  if (token.sight) words.push(`sight ${token.sight}`);
  if (token.light) words.push(`light ${token.light}`);
  const classes = [["", token.props], ["own: ", token.own], ["secret: ", token.secret]]; // prettier-ignore
  for (const [title, props] of classes)
    if (props?.length)
      words.push(title + props.map(([name, value]) => `${name}=${printable(value)}`).join(", "));
  return words.join("; ");
}
