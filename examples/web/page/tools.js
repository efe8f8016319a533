// The game master's tools: what a click or a drag on the map does, and what stands beside them.
import { Builder } from "./builder.js";
import { askMap, askTypes, showLinks } from "./dialogs.js";
import { button, byName, checkbox, choice, download, el, labelled, offer, quiet, tagOf } from "./dom.js";
import { clamped, rectOf } from "./geometry.js";
import { gmRows } from "./gm-panel.js";
import { GAME_MASTER } from "./protocol.js";
import { seenBy } from "./sight.js";
import { TERRAIN } from "./terrain.js";
import { Undo } from "./undo.js";
import { LAYERS } from "./view.js";

const LONGEST_NAME = 40;
const MODES = "off: all is seen; day: what isn't behind walls; night: what is lit";
const TRAIL = "A walk of many steps also exposes what is seen on the way";
const UNDO = "Takes back the last thing done, as far as the server can (Ctrl-Z)";

const named = (words, more = {}) => ({ "aria-label": words, ...more });

/**
 * What a tool does with the map.
 * @typedef {object} Tool
 * @property {"line"|"rect"} [drags] what it draws; without it, it is for clicks alone
 * @property {boolean} [points] it works on points, not on cells
 * @property {function(Place, Place): void} [drawn] something was drawn
 * @property {function(Place): void} [click]
 */

export class Tools {
  /** @type {?Tool} else choosing */
  tool = null;
  undo = new Undo();

  constructor(table) {
    this.table = table;
    this.builder = new Builder(table);
    this.#makeFields();
    this.#build();
  }

  #makeFields() {
    const letters = Object.entries(TERRAIN).map(([letter, [, words]]) => [letter, `${letter} ${words}`]);
    this.letter = choice(letters, "s", null, named("Letter"));
    this.seats = choice([], "", null, named("Player"));
    const name = { size: 10, placeholder: "name", maxLength: LONGEST_NAME };
    this.name = el("input", { ...name, ...named("Name of the new token") });
    this.size = choice(["1", "2", "3", "4"], "1", null, named("Size"));
    this.layer = choice([...LAYERS].reverse(), "hidden", null, named("Layer"));
    const setMode = (mode) => this.send({ do: "mode", map: this.map(), mode });
    const lit = named("How the map is lit", { title: MODES });
    this.mode = choice(["off", "day", "night"], "day", setMode, lit);
    this.shown = checkbox(false, (on) => this.send({ do: "show", map: this.map(), on }));
    const setTrail = (on) => this.send({ do: "trail", map: this.map(), on });
    this.trail = checkbox(false, setTrail, { title: TRAIL });
    const by = named("Whose eyes the map is shown by");
    this.by = choice([["", "my own"]], "", () => this.table.refresh(), by);
    this.options = el("span", { class: "options", hidden: true });
  }

  /** Each tool: its word, what it does, and its options. */
  #all() {
    const { builder } = this;
    const wall = { drags: "line", points: true, drawn: (from, to) => builder.wall(from.point, to.point) };
    const door = { drags: "line", points: true, drawn: (from, to) => builder.door(from, to) };
    const unwall = { points: true, click: ({ x, y }) => builder.erase(x, y) };
    const onCells = (command) => ({
      drags: "rect",
      drawn: (from, to) => this.send({ ...command(), map: this.map(), rect: this.#rect(from.cell, to.cell) }),
    });
    const toSeat = (name) => onCells(() => ({ do: name, seat: Number(this.seats.value) }));
    const terrain = onCells(() => ({ do: "terrain", kind: this.letter.value }));
    const placing = [quiet("puts the chosen token on a cell of this map")];
    const doors = [quiet("click: opens or shuts; drag along a wall: makes a door of that piece")];
    return [
      ["Choose", null, []],
      ["Place", { click: ({ cell }) => this.place(cell) }, placing],
      ["Token", { click: ({ cell }) => this.makeToken(cell) }, [this.name, this.size, this.layer]],
      ["Wall", wall, builder.options],
      ["Door", door, doors],
      ["Unwall", unwall, [quiet("click on a wall")]],
      ["Terrain", terrain, [this.letter]],
      ["Expose", toSeat("expose"), [this.seats]],
      ["Hide", toSeat("hide"), [this.seats]],
    ];
  }

  #build() {
    const group = el("div", { class: "tokens", ...named("What a click on the map does", { role: "group" }) });
    for (const [words, tool, options] of this.#all()) {
      const take = (event) => this.#take(event.target, group, tool, options);
      group.append(button(words, take, { "aria-pressed": String(tool === null) }));
    }
    const dump = (more) => () => this.send({ do: "dump" }, more);
    const rest = el(
      "span",
      { class: "options" },
      labelled("Eyes: ", this.by),
      labelled("Lit: ", this.mode),
      labelled("Shown ", this.shown),
      labelled("Trail ", this.trail),
      button("Undo", () => this.takeBack(), { title: UNDO }),
      button("New map…", () => askMap(this.table)),
      button("Types…", () => askTypes(this.table)),
      button("Links…", dump({ links: true }), { title: "For each player a link to sit down by" }),
      button("Save", dump({ save: true }), { title: "The campaign as a file that the server opens" }),
    );
    byName("tools").replaceChildren(group, this.options, rest);
    byName("tools").hidden = false;
  }

  #take(pressed, group, tool, options) {
    for (const other of group.children) other.setAttribute("aria-pressed", String(other === pressed));
    this.tool = tool;
    this.table.keyboard.escape();
    this.options.replaceChildren(...options);
    this.options.hidden = !options.length;
  }

  send(command, more) {
    return this.table.send(command, more);
  }

  map() {
    return this.table.mapName();
  }

  /** How many half cells lie between the points that a press can mean. */
  step() {
    return this.builder.step();
  }

  // ---- what is shown
  /** What the game master's map shows beside what was sent: walls, doors, and what a player sees. */
  overlay(grid) {
    const walls = grid && this.table.seat.walls?.of(grid.name);
    if (!walls) return {};
    const by = this.by.value;
    const eyes = by ? seenBy(Number(by), grid, walls, this.table.seat.view) : null;
    return { walls, doors: this.builder.openDoors(grid.name), eyes };
  }

  show() {
    const players = this.players().map((number) => [String(number), this.table.nameOf(number)]);
    const state = JSON.stringify(players);
    if (state !== this.playersShown) {
      this.playersShown = state;
      offer(this.seats, players, this.seats.value || "1");
      offer(this.by, [["", "my own"], ...players], this.by.value);
    }
    const grid = this.table.grid();
    if (!grid) return;
    this.mode.value = grid.mode;
    this.shown.checked = grid.shown;
    this.trail.checked = this.table.seat.walls?.trails.has(grid.name) ?? false;
  }

  players() {
    return Array.from({ length: this.table.seat.seats - 1 }, (_, at) => at + 1);
  }

  tokenRows(token) {
    return gmRows(this.table, this.players(), token);
  }

  // ---- what was carried out
  dumped({ text, sent }) {
    if (sent.save) download("campaign.json", text);
    if (sent.links) showLinks(this.table, JSON.parse(text).seats);
    this.table.macros.show();
    this.table.refresh();
  }

  carriedOut(command, sent) {
    if (command === "token") this.table.choose(`${GAME_MASTER}:${sent.tag}`);
    if (command === "map") this.table.look(sent.name);
  }

  takeBack() {
    const commands = this.undo.take();
    for (const command of commands) this.send(command, { back: null });
    if (!commands.length) this.table.tell("there is nothing to take back");
  }

  // ---- cells and tokens
  /** The rectangle between two cells, as far as it is on the map. */
  #rect(from, to) {
    const { w, h } = this.table.board.grid;
    const inside = ([x, y]) => [clamped(x, 0, w - 1), clamped(y, 0, h - 1)];
    return rectOf(inside(from), inside(to));
  }

  /** Puts the chosen token on a cell of the map that is shown. */
  place(cell) {
    const token = this.table.chosenToken();
    if (!token) {
      this.table.note("choose a token first", "event");
      return;
    }
    this.send({ do: "place", token: token.id, map: this.map(), cell: this.table.cornerAt(token, cell) });
  }

  makeToken(cell) {
    const name = this.name.value.trim();
    if (!name) {
      this.table.note("give the new token a name first", "event");
      return;
    }
    const tag = tagOf(name, this.table.tagsOf(GAME_MASTER));
    const [size, layer] = [Number(this.size.value), this.layer.value];
    this.send({ do: "token", tag, map: this.map(), cell, name, size, layer });
  }
}
