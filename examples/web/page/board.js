// The map as a canvas: what it shows, which part of it lies in the window, and what is beneath the pointer.
import { clamped } from "./geometry.js";
import { Painter } from "./paint.js";
import { TERRAIN } from "./terrain.js";
import { byLayer, covers } from "./view.js";
import { KINDS_OF_WALL, distance } from "./walls.js";

const [LEAST_SCALE, FIT_SCALE, MOST_SCALE] = [5, 48, 96]; // points of the screen for a cell
const MARGIN = 8; // points of the screen around a map that is shown whole
const [NEAR_CELLS, NEAR_POINTS] = [0.45, 14]; // how far from a wall a press may be, in half cells or points
const EDGE = 3; // cells that the window keeps between a token that moves and its edge

export class Board {
  scale = 32;
  left = 0; // what is at the window's corner, in cells
  top = 0;
  fitted = false; // the whole map is in the window, and stays there
  /** @type {?import("./view.js").Grid} */
  grid = null;
  /** @type {?Uint8Array} the cells that are seen, by the seat or by a player's eyes */
  seen = null;
  /** @type {import("./view.js").Token[]} as drawn, the last on top */
  tokens = [];
  /** @type {?import("./walls.js").WallsOfMap} */
  walls = null;
  /** @type {import("./walls.js").Wall[]} walls that are taken away while their door is open */
  doors = [];
  chosen = null; // a token's id
  hover = null; // a cell
  cursor = null; // a point that the keyboard moves
  path = []; // cells of the move that a click would send
  shape = null; // what is being drawn: {kind: "line", a, b} between points, {kind: "rect", a, b} between cells
  isDue = false; // a picture was asked for

  constructor(canvas) {
    this.canvas = canvas;
    this.painter = new Painter(canvas);
    new ResizeObserver(() => this.resize()).observe(canvas);
    this.resize();
  }

  resize() {
    const { width, height } = this.canvas.getBoundingClientRect();
    this.ratio = window.devicePixelRatio || 1;
    [this.width, this.height] = [width, height];
    const [across, tall] = [Math.round(width * this.ratio), Math.round(height * this.ratio)];
    [this.canvas.width, this.canvas.height] = [across, tall];
    if (this.fitted) this.fit();
    this.draw();
  }

  /**
   * Shows a map with what stands on it. `eyes` are the cells that a player sees, where the game master looks
   * by a player's eyes.
   */
  show({ grid, tokens, walls = null, doors = [], eyes = null }) {
    const isOther = grid?.name !== this.grid?.name || grid?.w !== this.grid?.w;
    this.grid = grid;
    this.tokens = [...tokens].sort(byLayer);
    [this.walls, this.doors] = [walls, doors];
    this.isByEyes = eyes !== null;
    this.seen = eyes ?? grid?.seen ?? null;
    if (isOther) this.fit();
    this.draw();
  }

  /** Draws at the next picture of the screen, however often it is asked to. */
  draw() {
    if (this.isDue) return;
    this.isDue = true;
    requestAnimationFrame(() => {
      this.isDue = false;
      this.painter.paint(this);
    });
  }

  // ---- the window
  fit() {
    this.fitted = true;
    if (!this.grid || !this.width) return;
    const { w, h } = this.grid;
    const fits = Math.min((this.width - 2 * MARGIN) / w, (this.height - 2 * MARGIN) / h);
    this.scale = clamped(fits, LEAST_SCALE, FIT_SCALE);
    this.left = (w - this.width / this.scale) / 2;
    this.top = (h - this.height / this.scale) / 2;
    this.draw();
  }

  /** Makes the map greater or smaller around a place of the window. */
  zoom(by, x = this.width / 2, y = this.height / 2) {
    const scale = clamped(this.scale * by, LEAST_SCALE, MOST_SCALE);
    this.left += x / this.scale - x / scale;
    this.top += y / this.scale - y / scale;
    this.scale = scale;
    this.fitted = false;
    this.draw();
  }

  pan(right, down) {
    this.left -= right / this.scale;
    this.top -= down / this.scale;
    this.fitted = false;
    this.draw();
  }

  /** Moves the window so that a cell is well inside of it. */
  follow([x, y]) {
    const [across, tall] = [this.width / this.scale, this.height / this.scale];
    const edge = Math.min(EDGE, across / 4, tall / 4);
    this.left = clamped(this.left, x + 1 + edge - across, x - edge);
    this.top = clamped(this.top, y + 1 + edge - tall, y - edge);
  }

  // ---- where things are
  cellAt(x, y) {
    return [Math.floor(x / this.scale + this.left), Math.floor(y / this.scale + this.top)];
  }

  /** The nearest point of the map whose numbers are multiples of a step, 1 or 2 half cells. */
  pointAt(x, y, step) {
    const near = (at, most) => clamped(step * Math.round((2 * at) / step), 0, 2 * most);
    const { w, h } = this.grid;
    return [near(x / this.scale + this.left, w), near(y / this.scale + this.top, h)];
  }

  /** Where a point lies in the window. */
  placeOf([px, py]) {
    return [(px / 2 - this.left) * this.scale, (py / 2 - this.top) * this.scale];
  }

  /** The topmost token that covers a cell. */
  tokenAt(cell) {
    return this.tokens.findLast((token) => covers(token, cell)) ?? null;
  }

  /** The wall or open door that is nearest to a place of the window, if it is near. */
  wallAt(x, y) {
    const point = [2 * (x / this.scale + this.left), 2 * (y / this.scale + this.top)];
    let [best, least] = [null, Math.max(NEAR_CELLS, NEAR_POINTS / this.scale)];
    const walls = KINDS_OF_WALL.flatMap((kind) => [...(this.walls?.[kind].values() ?? [])]);
    for (const wall of [...walls, ...this.doors]) {
      const far = distance(point, wall);
      if (far < least) [best, least] = [wall, far];
    }
    return best;
  }

  isInWindow({ cell: [x, y], size }) {
    const [x1, y1] = this.cellAt(this.width, this.height);
    return x <= x1 && y <= y1 && x + size > this.left && y + size > this.top;
  }

  /** Whether a cell of a token is seen now. Things that lie about are shown from memory too. */
  isSeen({ cell: [x, y], size }) {
    const { w } = this.grid;
    for (let row = y; row < y + size; row++)
      if (this.seen.subarray(row * w + x, row * w + x + size).includes(1)) return true;
    return false;
  }

  /** What a cell's ground is called, and whether it is only remembered. */
  groundWords(cell) {
    const letter = this.grid.letter(cell);
    if (!letter) return "not known";
    const isSeen = this.seen[cell[1] * this.grid.w + cell[0]];
    const how = isSeen ? "" : this.isByEyes ? ", not seen" : ", remembered";
    return `${TERRAIN[letter][1]} (${letter})${how}`;
  }
}
