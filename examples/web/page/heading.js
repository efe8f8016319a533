// Around the map: which maps there are, what its colours mean, who sits here, and the page's keys.
import { button, byName, el, quiet } from "./dom.js";
import { seatWords } from "./protocol.js";
import { TERRAIN, WALL_COLOURS } from "./terrain.js";

const KEYS = [
  ["arrow keys, numeric pad", "move the chosen token; Home, End, Page Up and Page Down go aslant"],
  ["click", "on a token: choose it; on a cell: go there (Shift: also where a token stands)"],
  ["n, p", "choose the next or the last token of the map"],
  ["m", "the next map"],
  ["drag, wheel, +, -, 0", "move the map, make it greater or smaller, all of it"],
  ["c", "a cursor for the keyboard: arrow keys move it, Enter clicks, or begins and ends a line; Esc ends it"],
  ["d", "say in words what is on the map"],
  ["t", "talk"],
  ["Ctrl-Z", "the game master takes back the last thing done"],
  ["/r 2d6+1", "typed as talk, rolls"],
];

export class Heading {
  shown = null; // the maps as they were shown last

  constructor(table) {
    this.table = table;
    const press = (id, does) => byName(id).addEventListener("click", does);
    press("leave", () => table.send({ do: "bye" }));
    press("in", () => table.board.zoom(1.25));
    press("out", () => table.board.zoom(0.8));
    press("fit", () => table.board.fit());
    press("help", () => this.toggleKeys());
    const rows = KEYS.map(([key, words]) => el("tr", {}, el("th", {}, key), el("td", {}, words)));
    byName("keys").append(el("table", {}, ...rows));
  }

  toggleKeys() {
    byName("keys").hidden = !byName("keys").hidden;
    byName("help").setAttribute("aria-expanded", String(!byName("keys").hidden));
  }

  showSeat() {
    const { isGm, number, seats } = this.table.seat;
    byName("who").textContent = `${isGm ? "game master" : seatWords(number)}, of ${seats} seats`;
  }

  show() {
    this.showMaps();
    this.showLegend();
  }

  showMaps() {
    const { view } = this.table.seat;
    const [names, grid] = [view.mapNames(), this.table.grid()];
    const titles = names.map((name) => view.maps.get(name).title());
    const state = JSON.stringify([titles, grid?.name]);
    if (state === this.shown) return;
    this.shown = state;
    const buttons = names.map((name, at) => {
      const pressed = String(name === grid.name);
      return button(name, () => this.table.look(name), { "aria-pressed": pressed, title: titles[at] });
    });
    const kept = grid?.shown === false ? ", players aren't shown it" : "";
    const words = grid ? `${grid.w} by ${grid.h}, ${grid.mode}${kept}` : "you are shown no map";
    byName("maps").replaceChildren(...buttons, quiet(words));
    byName("board").setAttribute("aria-label", grid ? `Map ${grid.title()}` : "No map");
  }

  showLegend() {
    const grid = this.table.grid();
    const letters = grid ? [...new Set(grid.letters)].filter(Boolean).sort() : [];
    const rows = letters.map((code) => {
      const letter = String.fromCharCode(code);
      const [colour, words] = TERRAIN[letter];
      return legendRow(colour, letter, words);
    });
    const walls = this.table.seat.isGm ? Object.values(WALL_COLOURS) : [];
    rows.push(...walls.map(([colour, words]) => legendRow(lineOf(colour), "", words)));
    byName("legend").replaceChildren(...rows);
  }
}

function lineOf(colour) {
  return `linear-gradient(transparent 40%, ${colour} 40% 65%, transparent 65%)`;
}

function legendRow(background, letter, words) {
  const square = el("i", {}, letter);
  square.style.background = background;
  return el("li", {}, square, words);
}
