// The panel of the chosen token: what was sent of it, and what the seat may change.
import { ask, button, byName, choice, el, labelled, numberField, quiet, row, tagOf } from "./dom.js";
import { fightRow } from "./fight.js";
import { TAG, printable } from "./protocol.js";
import { mayAct, tokenWords } from "./view.js";

const LONGEST_VALUE = 200;
const LONGEST_NAME = 40;

/** The classes of properties: the key of a token, the word that stands before a name, and the heading. */
const CLASSES = [
  ["props", "public", "Public"],
  ["own", "own", "Own: its owners and the GM"],
  ["secret", "secret", "Secret: the GM alone"],
];

export class Panel {
  shown = null; // what was shown last

  constructor(table) {
    this.table = table;
    this.panel = byName("token");
    this.panel.addEventListener("focusout", () => setTimeout(() => this.show()));
  }

  /** Shows the panel anew where something of it differs, but not under somebody's hands. */
  show() {
    const { seat } = this.table;
    const at = document.activeElement;
    if (!seat || (this.panel.contains(at) && ["INPUT", "SELECT"].includes(at.tagName))) return;
    const [token, onMap] = [this.table.chosenToken(), seat.view.onMap(this.table.mapName())];
    const chips = onMap.map((other) => [other.id, tokenWords(other), mayAct(other)]);
    const { lights, sights, fight } = seat.view;
    const state = JSON.stringify([token, chips, lights, sights, fight, this.table.mapName()]);
    if (state === this.shown) return;
    this.shown = state;
    this.panel.replaceChildren(this.chips(onMap, token), ...(token ? this.rows(token) : [nothingChosen()]));
  }

  /** A button for each token of the map. */
  chips(onMap, chosen) {
    const { seat } = this.table;
    const chip = (token) => {
      const star = mayAct(token) && !seat.isGm ? "★ " : "";
      const given = { "aria-pressed": String(token.id === chosen?.id), title: tokenWords(token) };
      return button(star + printable(token.name), () => this.table.choose(token.id), given);
    };
    const make = !seat.isGm && button("+", () => this.askMake(), { title: "Make a token of your own" });
    const given = { class: "tokens", role: "group", "aria-label": "Tokens of the map" };
    return el("div", given, ...onMap.map(chip), make);
  }

  rows(token) {
    const words = [`${token.id} at ${token.cell}`];
    if (token.size > 1) words.push(`size ${token.size}`);
    if (token.layer !== "token") words.push(`layer ${token.layer}`);
    const title = el("h2", {}, el("bdi", {}, printable(token.name)), " ", quiet(words.join(", ")));
    const actions = mayAct(token) ? [this.actions(token), fightRow(this.table, token)] : [];
    const rows = [title, ...actions, ...(this.table.tools?.tokenRows(token) ?? [])];
    for (const [key, word, heading] of CLASSES)
      if (token[key]?.length) {
        const properties = token[key].map(([name, value]) => this.property(token, key, word, name, value));
        rows.push(el("h3", {}, heading), el("table", {}, ...properties));
      }
    return mayAct(token) ? [...rows, this.newProperty(token)] : rows;
  }

  actions(token) {
    const { seat } = this.table;
    const lights = [["", "none"], ...Object.keys(seat.view.lights).sort()];
    const put = (light) => this.table.send({ do: "light", token: token.id, light: light || null });
    const sees = token.sight ? `sees as ${token.sight}` : "sees nothing by itself";
    const isMade = seat.isGm || token.id.startsWith(`${seat.number}:`);
    const remove = isMade && button("Remove", () => this.askRemove(token));
    return row(labelled("Light ", choice(lights, token.light, put)), !seat.isGm && quiet(sees), remove);
  }

  // ---- properties
  /** @param {string} key of a token: props, own or secret */
  set(id, key, name, value) {
    if (key === "secret") return this.table.send({ do: "secret", token: id, name, value });
    const kind = key === "props" ? "public" : "own";
    return this.table.send({ do: "setprop", token: id, class: kind, name, value });
  }

  property(token, key, word, name, value) {
    if (!mayAct(token)) return propertyRow(name, el("bdi", {}, printable(value)));
    const field = el("input", {
      value,
      maxLength: LONGEST_VALUE,
      "aria-label": `${word} ${name}`,
      onchange: () => this.set(token.id, key, name, field.value),
      onkeydown: (event) => event.key === "Enter" && field.blur(),
    });
    return propertyRow(name, field);
  }

  newProperty(token) {
    const classes = CLASSES.slice(0, this.table.seat.isGm ? 3 : 2).map(([key, word]) => [key, word]);
    const kind = choice(classes, classes.at(-1)[0], null, { "aria-label": "Class" });
    const name = el("input", { size: 6, placeholder: "name", pattern: TAG, "aria-label": "Property" });
    const add = () => {
      if (!name.value || !name.checkValidity()) name.focus();
      else if (this.set(token.id, kind.value, name.value, value.value)) document.activeElement.blur();
    };
    const value = el("input", {
      size: 8,
      placeholder: "value",
      maxLength: LONGEST_VALUE,
      "aria-label": "Value",
      onkeydown: (event) => event.key === "Enter" && add(),
    });
    return row(kind, name, value, button("Add", add));
  }

  // ---- tokens that come and go
  askRemove(token) {
    const words = `Remove ${printable(token.name)}? Its name ${token.id} stays used.`;
    ask(words, [], () => this.table.send({ do: "remove", token: token.id }));
  }

  askMake() {
    const { table } = this;
    const name = el("input", { required: true, maxLength: LONGEST_NAME });
    const { w, h } = table.grid();
    const [x, y] = table.acting()?.cell ?? [0, 0];
    const fields = [
      ["name", "Name", name],
      ["x", "Column", numberField(x, 0, w - 1)],
      ["y", "Row", numberField(y, 0, h - 1)],
    ];
    const map = table.mapName();
    ask(`A token of your own on ${map}`, fields, (given) => {
      const tag = tagOf(given.name, table.tagsOf(table.seat.number));
      table.send({ do: "make", tag, map, cell: [given.x, given.y], name: given.name });
    });
  }
}

function nothingChosen() {
  return el("p", { class: "quiet" }, "No token is chosen. Click on one.");
}

function propertyRow(name, field) {
  return el("tr", {}, el("td", {}, name), el("td", {}, field));
}
