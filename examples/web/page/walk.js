// Moves of the chosen token. The reply to a move tells where the token stands, and only then the next one is
// sent: what is pressed meanwhile waits.
import { straightPath } from "./geometry.js";

const MOST_STEPS = 8; // of arrow keys that wait

export class Walk {
  /** @type {[number, number][]} by how much each arrow key that waits goes right and down */
  steps = [];
  /** @type {?import("./view.js").Cell} where a click wants to go once the move under way has ended */
  goal = null;

  constructor(table) {
    this.table = table;
  }

  /** A straight way to a cell. */
  goTo(cell) {
    const token = this.table.acting();
    if (!token || token.map !== this.table.mapName()) return;
    this.goal = this.table.seat.waits("move") ? cell : null;
    if (!this.goal) this.#send(token, straightPath(token.cell, this.table.cornerAt(token, cell)));
  }

  step(by) {
    if (!this.table.acting()) {
      this.table.tell("no token of yours is chosen");
      return;
    }
    this.table.lookedAt = null;
    if (this.steps.length < MOST_STEPS) this.steps.push(by);
    this.pump();
  }

  /** Sends the steps that wait as one path, unless a move is under way. */
  pump() {
    const token = this.table.acting();
    if (!this.steps.length || !token || this.table.seat.waits("move")) return;
    let [x, y] = token.cell;
    const path = this.steps.map(([right, down]) => [(x += right), (y += down)]);
    this.steps = [];
    this.#send(token, path);
  }

  /** A move has ended: what waited is sent. */
  goOn() {
    if (this.goal) this.goTo(this.goal);
    this.pump();
  }

  stop() {
    this.steps = [];
    this.goal = null;
  }

  #send(token, path) {
    if (path.length) this.table.send({ do: "move", token: token.id, path });
  }
}
