// The pointer on the map, and what a press there means: a choice, a move, or what the game master's tool does.

const DRAG = 5; // points of the screen that make a press a drag
const WHEEL = 0.16; // by how much a turn of the wheel makes the map greater, as a logarithm

/**
 * A place of the map, by the pointer or by the keyboard's cursor.
 * @typedef {object} Place
 * @property {number} x of the window
 * @property {number} y
 * @property {import("./view.js").Cell} cell that is there
 * @property {import("./walls.js").Point} point that is nearest
 */

export class Hands {
  down = null; // a press: where it began and was last, whether it draws, moves the map, and went far
  /** @type {Map<number, Place>} of a screen that is touched: two of them make the map greater or smaller */
  fingers = new Map();

  constructor(table) {
    this.table = table;
    this.board = table.board;
    const { canvas } = this.board;
    const heed = (name, does, options) => {
      const ifMap = (event) => this.board.grid && does(event, this.placeOf(event));
      canvas.addEventListener(name, ifMap, options);
    };
    heed("contextmenu", (event) => event.preventDefault());
    heed("wheel", (event, place) => this.turn(event, place), { passive: false });
    heed("pointerdown", (event, place) => this.press(event, place));
    heed("pointermove", (event, place) => this.move(event, place));
    heed("pointerup", (event, place) => this.release(event, place));
    heed("pointercancel", (event) => this.letGo(event));
    heed("pointerleave", () => this.leave());
  }

  get tool() {
    return this.table.tools?.tool ?? null;
  }

  /** @returns {Place} */
  placeOf(event) {
    const { left, top } = this.board.canvas.getBoundingClientRect();
    const [x, y] = [event.clientX - left, event.clientY - top];
    const step = this.table.tools?.step() ?? 1;
    return { x, y, cell: this.board.cellAt(x, y), point: this.board.pointAt(x, y, step) };
  }

  // ---- the pointer
  turn(event, { x, y }) {
    event.preventDefault();
    this.board.zoom(Math.exp(-Math.sign(event.deltaY) * WHEEL), x, y);
  }

  press(event, place) {
    this.board.canvas.setPointerCapture(event.pointerId);
    this.fingers.set(event.pointerId, place);
    if (this.fingers.size > 1) {
      this.down = this.board.shape = null;
      return;
    }
    const isLeft = event.button === 0; // the others move the map
    const draws = isLeft && this.draws(place);
    this.down = { place, last: place, isFar: false, pans: !isLeft, draws };
  }

  move(event, place) {
    if (this.fingers.size === 2 && this.fingers.has(event.pointerId)) this.pinch(event.pointerId, place);
    if (this.fingers.has(event.pointerId)) this.fingers.set(event.pointerId, place);
    if (this.down) this.drag(this.down, place);
    this.hover(place.cell);
  }

  drag(down, place) {
    down.isFar ||= Math.hypot(place.x - down.place.x, place.y - down.place.y) > DRAG;
    if (down.draws) this.drawTo(down.place, place);
    else if (down.isFar) this.board.pan(place.x - down.last.x, place.y - down.last.y);
    down.last = place;
  }

  pinch(finger, place) {
    const before = this.fingers.get(finger);
    const [, other] = [...this.fingers].find(([id]) => id !== finger);
    const far = (one) => Math.hypot(one.x - other.x, one.y - other.y) || 1;
    this.board.pan((place.x - before.x) / 2, (place.y - before.y) / 2);
    this.board.zoom(far(place) / far(before), (place.x + other.x) / 2, (place.y + other.y) / 2);
  }

  release(event, place) {
    const { down } = this;
    this.letGo(event);
    if (!down) return;
    if (down.draws && (down.isFar || this.tool)) this.drawn(down.place, place);
    else if (!down.isFar && !down.pans) this.click(place, event.shiftKey);
    this.board.draw();
  }

  letGo(event) {
    this.fingers.delete(event.pointerId);
    this.down = this.board.shape = null;
  }

  leave() {
    this.table.tell("");
    this.hover(null);
  }

  /** The pointer or the cursor is at a cell, or at none. */
  hover(cell) {
    if (this.board.hover?.join() === cell?.join()) return;
    this.board.hover = cell;
    this.table.preview();
  }

  // ---- what a press means
  /** Whether a press begins something to be drawn; else it is a click, or moves the map. */
  draws(place) {
    if (this.tool) return Boolean(this.tool.drags);
    const token = this.board.tokenAt(place.cell); // the game master drags the chosen one
    return Boolean(this.table.seat.isGm && token && token.id === this.board.chosen);
  }

  /** Shows what would be drawn. */
  drawTo(from, to) {
    const begin = this.tool ? from : to; // a token that is dragged is where the pointer is
    const isLine = this.tool?.drags === "line";
    this.board.shape = isLine
      ? { kind: "line", a: begin.point, b: to.point }
      : { kind: "rect", a: begin.cell, b: to.cell };
    this.board.draw();
  }

  drawn(from, to) {
    if (this.tool) this.tool.drawn(from, to);
    else this.table.tools.place(to.cell);
  }

  /** With `through` a token is no hindrance. */
  click(place, through = false) {
    if (this.tool) {
      this.tool.click?.(place);
      return;
    }
    const token = this.board.tokenAt(place.cell);
    if (token && !through && token.id !== this.board.chosen) this.table.choose(token.id);
    else this.table.walk.goTo(place.cell);
  }
}
