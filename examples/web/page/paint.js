// How the map is drawn. One unit of the pen is a cell.
import { rectOf } from "./geometry.js";
import { printable } from "./protocol.js";
import {
  DRAWN_COLOUR, OTHER_COLOUR, OWN_COLOUR, TERRAIN, WALL_COLOURS, colourOf, initials,
} from "./terrain.js"; // prettier-ignore
import { isKept, mayAct } from "./view.js";

const FONT = "system-ui, sans-serif";
const REMEMBERED = 0.32; // how strongly ground is drawn that isn't seen now
// From how many points of the screen for a cell on they can be read.
const [LETTERS_FROM, INITIALS_FROM, POINTS_FROM] = [15, 12, 24];

/** Draws what a board shows. */
export class Painter {
  constructor(canvas) {
    this.canvas = canvas;
    this.pen = canvas.getContext("2d");
    // The ground as it was drawn last: it changes seldom, and a large map has thousands of cells.
    this.ground = document.createElement("canvas");
    this.groundState = null;
  }

  /** @param {import("./board.js").Board} board */
  paint(board) {
    const { pen, canvas } = this;
    this.board = board;
    pen.setTransform(1, 0, 0, 1, 0, 0);
    pen.fillStyle = "#000";
    pen.fillRect(0, 0, canvas.width, canvas.height);
    if (!board.grid) return;
    this.refreshGround();
    pen.drawImage(this.ground, 0, 0);
    this.place(pen);
    for (const token of board.tokens) if (board.isInWindow(token)) this.paintToken(token);
    this.paintWalls();
    this.paintPath();
    this.paintHover();
    this.paintCursor();
    this.paintShape();
  }

  /** Lets a pen draw in cells. */
  place(pen) {
    const { ratio, scale, left, top } = this.board;
    const unit = ratio * scale;
    pen.setTransform(unit, 0, 0, unit, -left * unit, -top * unit);
    pen.textAlign = "center";
    pen.textBaseline = "middle";
  }

  // ---- ground
  refreshGround() {
    const { grid, seen, scale, left, top, ratio } = this.board;
    const { width, height } = this.canvas;
    const state = [grid, grid.changes, seen, scale, left, top, ratio, width, height];
    if (this.groundState?.every((part, at) => part === state[at])) return;
    this.groundState = state;
    [this.ground.width, this.ground.height] = [width, height];
    const pen = this.ground.getContext("2d");
    this.place(pen);
    const window = this.cellsInWindow();
    this.paintCells(pen, window);
    this.paintLattice(pen, window);
    if (scale >= LETTERS_FROM) this.paintLetters(pen, window);
    pen.strokeStyle = "#6b655a";
    pen.lineWidth = 2 / scale;
    pen.strokeRect(-1 / scale, -1 / scale, grid.w + 2 / scale, grid.h + 2 / scale);
  }

  /** The first and the last cell of the map that can be seen in the window. */
  cellsInWindow() {
    const { board } = this;
    const [x0, y0] = board.cellAt(0, 0);
    const [x1, y1] = board.cellAt(board.width, board.height);
    const { w, h } = board.grid;
    return [Math.max(0, x0), Math.max(0, y0), Math.min(x1, w - 1), Math.min(y1, h - 1)];
  }

  paintCells(pen, [x0, y0, x1, y1]) {
    const { grid, seen } = this.board;
    const isSame = (one, other) => grid.letters[one] === grid.letters[other] && seen[one] === seen[other];
    for (let y = y0; y <= y1; y++)
      for (let x = x0, end; x <= x1; x = end) {
        const at = y * grid.w + x;
        for (end = x + 1; end <= x1 && isSame(at, at + end - x); ) end++;
        if (!grid.letters[at]) continue;
        pen.globalAlpha = seen[at] ? 1 : REMEMBERED;
        [pen.fillStyle] = TERRAIN[grid.letter([x, y])];
        pen.fillRect(x, y, end - x, 1);
      }
    pen.globalAlpha = 1;
  }

  paintLattice(pen, [x0, y0, x1, y1]) {
    const { scale } = this.board;
    pen.beginPath();
    for (let x = x0; x <= x1 + 1; x++) addLine(pen, [2 * x, 2 * y0, 2 * x, 2 * y1 + 2]);
    for (let y = y0; y <= y1 + 1; y++) addLine(pen, [2 * x0, 2 * y, 2 * x1 + 2, 2 * y]);
    pen.strokeStyle = scale > INITIALS_FROM ? "#000" : "#0006";
    pen.lineWidth = Math.min(0.05, 1 / scale);
    pen.stroke();
  }

  paintLetters(pen, [x0, y0, x1, y1]) {
    const { grid, seen } = this.board;
    pen.font = `0.42px ${FONT}`;
    for (let y = y0; y <= y1; y++)
      for (let x = x0; x <= x1; x++) {
        const letter = grid.letter([x, y]);
        if (!letter || letter === ".") continue;
        pen.fillStyle = seen[y * grid.w + x] ? "#0008" : "#fff3";
        pen.fillText(letter, x + 0.5, y + 0.53);
      }
  }

  // ---- tokens
  paintToken(token) {
    const { board, pen } = this;
    const half = token.size / 2;
    const [x, y] = [token.cell[0] + half, token.cell[1] + half];
    this.paintDisc(token, x, y, half);
    if (token.id === board.chosen) this.paintRing(x, y, half * 1.02, 2.5, "#fff");
    if (board.scale * token.size >= INITIALS_FROM) {
      pen.font = `600 ${0.4 * token.size}px ${FONT}`;
      pen.fillStyle = "#fff";
      pen.fillText(initials(token.name), x, y + 0.03 * token.size);
    }
    const points = token.props.find(([name]) => name === "hp");
    if (points && board.scale >= POINTS_FROM) this.paintPoints(points[1], x, y + half * 0.78);
  }

  paintDisc(token, x, y, half) {
    const { pen } = this;
    const isThing = token.layer === "object" || token.layer === "background";
    const reach = half * (token.layer === "background" ? 0.7 : 0.84);
    const isOwn = token.owners ? token.owners.length > 0 : mayAct(token);
    const isDim = isKept(token) || !this.board.isSeen(token);
    pen.globalAlpha = isDim ? 0.55 : token.layer === "background" ? 0.8 : 1;
    pen.beginPath();
    if (isThing) pen.roundRect(x - reach, y - reach, 2 * reach, 2 * reach, 0.14 * token.size);
    else pen.arc(x, y, reach, 0, 2 * Math.PI);
    pen.fillStyle = colourOf(token.id);
    pen.fill();
    pen.setLineDash(isKept(token) ? [0.14, 0.1] : []);
    pen.lineWidth = isOwn ? 0.1 : 0.05;
    pen.strokeStyle = isOwn ? OWN_COLOUR : OTHER_COLOUR;
    pen.stroke();
    pen.setLineDash([]);
    pen.globalAlpha = 1;
  }

  /** A ring whose line is never thinner than so many points of the screen. */
  paintRing(x, y, reach, points, colour) {
    const { pen } = this;
    pen.beginPath();
    pen.arc(x, y, reach, 0, 2 * Math.PI);
    pen.lineWidth = Math.max(0.06, points / this.board.scale);
    pen.strokeStyle = colour;
    pen.stroke();
  }

  paintPoints(value, x, bottom) {
    const { pen } = this;
    const words = printable(value).slice(0, 5);
    pen.font = `600 0.28px ${FONT}`;
    const across = pen.measureText(words).width + 0.14;
    pen.fillStyle = "#000b";
    pen.fillRect(x - across / 2, bottom - 0.15, across, 0.3);
    pen.fillStyle = "#fff";
    pen.fillText(words, x, bottom + 0.01);
  }

  // ---- lines
  paintLines(lines, colour, width, dash = []) {
    const { pen } = this;
    pen.beginPath();
    for (const line of lines) addLine(pen, line);
    pen.lineCap = "round";
    pen.lineWidth = width;
    pen.strokeStyle = colour;
    pen.setLineDash(dash);
    pen.stroke();
    pen.setLineDash([]);
    pen.lineCap = "butt";
  }

  paintWalls() {
    const { walls, doors, scale } = this.board;
    if (!walls) return;
    const thick = Math.max(0.1, 2 / scale);
    const { both, vbl, mbl, door } = WALL_COLOURS;
    const some = (kind, isMeant) => [...walls[kind]].filter(([name]) => isMeant(name)).map(([, wall]) => wall);
    this.paintLines(some("vbl", (name) => walls.mbl.has(name)), both[0], thick * 1.3);
    this.paintLines(some("vbl", (name) => !walls.mbl.has(name)), vbl[0], thick * 1.3);
    this.paintLines(some("mbl", (name) => !walls.vbl.has(name)), mbl[0], thick, [0.25, 0.2]);
    this.paintLines(doors, door[0], thick * 1.3, [0.1, 0.22]);
  }

  // ---- what the pointer and the keyboard are about to do
  paintPath() {
    const { pen } = this;
    pen.fillStyle = "#fff";
    pen.strokeStyle = "#000";
    pen.lineWidth = 0.04;
    for (const [x, y] of this.board.path) {
      pen.beginPath();
      pen.arc(x + 0.5, y + 0.5, 0.13, 0, 2 * Math.PI);
      pen.fill();
      pen.stroke();
    }
  }

  paintHover() {
    const { hover, grid, scale } = this.board;
    if (!hover || !grid.has(hover)) return;
    this.pen.lineWidth = Math.max(0.04, 1.5 / scale);
    this.pen.strokeStyle = "#fffc";
    this.pen.strokeRect(hover[0] + 0.03, hover[1] + 0.03, 0.92, 0.92);
  }

  paintCursor() {
    const { cursor, scale } = this.board;
    if (!cursor) return;
    this.paintRing(cursor[0] / 2, cursor[1] / 2, Math.max(0.14, 4 / scale), 2, DRAWN_COLOUR);
  }

  paintShape() {
    const { pen } = this;
    const { shape, scale } = this.board;
    if (!shape) return;
    if (shape.kind === "line") {
      this.paintLines([[...shape.a, ...shape.b]], DRAWN_COLOUR, Math.max(0.1, 3 / scale));
      return;
    }
    const rect = rectOf(shape.a, shape.b);
    pen.fillStyle = `${DRAWN_COLOUR}44`;
    pen.strokeStyle = DRAWN_COLOUR;
    pen.lineWidth = 2 / scale;
    pen.fillRect(...rect);
    pen.strokeRect(...rect);
  }
}

/** Adds a line between two points of half cells to the pen's path. */
function addLine(pen, [ax, ay, bx, by]) {
  pen.moveTo(ax / 2, ay / 2);
  pen.lineTo(bx / 2, by / 2);
}
