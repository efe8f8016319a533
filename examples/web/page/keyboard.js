// The keyboard on the map: steps, choices, and a cursor that does all that the pointer does.
import { byName } from "./dom.js";
import { clamped } from "./geometry.js";

const STEPS = {
  ArrowUp: [0, -1], ArrowDown: [0, 1], ArrowLeft: [-1, 0], ArrowRight: [1, 0],
  Home: [-1, -1], PageUp: [1, -1], End: [-1, 1], PageDown: [1, 1],
  Numpad7: [-1, -1], Numpad8: [0, -1], Numpad9: [1, -1], Numpad4: [-1, 0],
  Numpad6: [1, 0], Numpad1: [-1, 1], Numpad2: [0, 1], Numpad3: [1, 1],
}; // prettier-ignore

export class Keyboard {
  from = null; // where the cursor began to draw

  constructor(table) {
    this.table = table;
    const { board } = table;
    this.board = board;
    this.keys = {
      n: () => table.chooseNext(1),
      p: () => table.chooseNext(-1),
      m: () => table.lookAtNext(),
      c: () => this.toggleCursor(),
      d: () => table.describe(),
      t: () => byName("text").focus(),
      "+": () => board.zoom(1.25),
      "=": () => board.zoom(1.25),
      "-": () => board.zoom(0.8),
      0: () => board.fit(),
      Enter: () => this.enter(),
      " ": () => this.enter(),
      Escape: () => this.escape(),
    };
    document.addEventListener("keydown", (event) => this.press(event));
  }

  press(event) {
    const { table } = this;
    const on = event.target;
    if (!table.seat?.joined || !this.board.grid) return;
    if (on.closest("input, select, textarea, dialog, #log")) return;
    if ((event.ctrlKey || event.metaKey) && event.key === "z") {
      table.tools?.takeBack();
      return;
    }
    if (event.ctrlKey || event.altKey || event.metaKey) return;
    if (on.closest("button") && ["Enter", " "].includes(event.key)) return; // they press the button
    const step = STEPS[event.code] ?? STEPS[event.key];
    const does = step ? () => this.step(step) : this.keys[event.key];
    if (!does) return;
    event.preventDefault();
    does();
  }

  step(by) {
    if (this.board.cursor) this.moveCursor(by);
    else this.table.walk.step(by);
  }

  /** The cursor is a point of half cells, in the middle of a cell where the tool works on cells. */
  toggleCursor() {
    if (this.board.cursor) {
      this.escape();
      return;
    }
    const token = this.table.chosenToken();
    const [x, y] = token?.map === this.table.mapName() ? token.cell : [0, 0];
    this.board.cursor = [2 * x + 1, 2 * y + 1];
    this.moveCursor([0, 0]);
  }

  moveCursor([right, down]) {
    const { board, table } = this;
    const { hands } = table;
    const { w, h } = board.grid;
    const onPoint = (at, step, most) => clamped(at + step, 0, 2 * most);
    const onCell = (at, step, most) => clamped((at | 1) + 2 * step, 1, 2 * most - 1);
    const moved = hands.tool?.points ? onPoint : onCell;
    board.cursor = [moved(board.cursor[0], right, w), moved(board.cursor[1], down, h)];
    const place = this.place();
    hands.hover(place.cell);
    if (this.from) hands.drawTo(this.from, place);
    table.tell(hands.tool?.points ? `point ${place.point}` : table.wordsOf(place.cell));
    board.follow(place.cell);
    board.draw();
  }

  /** @returns {import("./hands.js").Place} where the cursor is */
  place() {
    const { cursor, grid } = this.board;
    const [x, y] = this.board.placeOf(cursor);
    const cell = [Math.min(cursor[0] >> 1, grid.w - 1), Math.min(cursor[1] >> 1, grid.h - 1)];
    return { x, y, cell, point: cursor };
  }

  /** Enter is a click, or the first and then the second end of what is drawn. */
  enter() {
    const { board, table } = this;
    if (!board.cursor) {
      this.toggleCursor();
      return;
    }
    const place = this.place();
    if (!table.hands.draws(place)) table.hands.click(place);
    else if (!this.from) this.from = place;
    else {
      table.hands.drawn(this.from, place);
      this.from = board.shape = null;
    }
    board.draw();
  }

  escape() {
    this.from = this.board.shape = this.board.cursor = null;
    this.table.walk.stop();
    this.table.hands.hover(null);
    this.table.preview();
  }
}
