// Macros of the seat. A player isn't told its own, so this browser keeps those that it has heard of.
import { ask, button, byName, el } from "./dom.js";
import { TAG, printable } from "./protocol.js";
import { kept } from "./storage.js";

const LONGEST_TEXT = 2000;
const ARGUMENTS = /"([^"]*)"|(\S+)/g; // words, or texts in quotes

export class Macros {
  /** @type {Map<string, string>} what was given to a macro last */
  lastArguments = new Map();

  constructor(table) {
    this.table = table;
  }

  /** @returns {Map<string, ?string>} */
  get known() {
    return this.table.seat.macros;
  }

  recall() {
    const { seat } = this.table;
    if (!seat.isGm) seat.macros = new Map(Object.entries(kept("macros", seat.number).read() ?? {}));
    this.show();
  }

  /** The game master is told by each dump; of a player the names are kept here. */
  remember() {
    const { isGm, number } = this.table.seat;
    if (!isGm) kept("macros", number).write(Object.fromEntries(this.known));
    this.show();
  }

  forget(name) {
    if (this.known.delete(name)) this.remember();
  }

  carriedOut(command, { name }) {
    if (command === "macro" && this.known.has(name)) return;
    if (command === "macro") this.known.set(name, null); // there is one; its text isn't told
    this.remember();
  }

  show() {
    const title = (name) => printable(this.known.get(name) ?? "a macro whose text isn't known here");
    const names = [...this.known.keys()].sort();
    const buttons = names.map((name) => button(name, () => this.run(name), { title: title(name) }));
    byName("macros").replaceChildren(...buttons, button("Macros…", () => this.edit()));
  }

  /** Asks for arguments where the macro has use for them, or may have. */
  run(name) {
    const send = (args) => this.table.send({ do: "macro", name, args, to: this.table.talk.to() });
    if (!(this.known.get(name) ?? "arg(").includes("arg(")) {
      send([]);
      return;
    }
    const field = el("input", { value: this.lastArguments.get(name) ?? "" });
    ask(`Run ${name}`, [["args", 'Arguments: words, or texts in "quotes"', field]], ({ args }) => {
      this.lastArguments.set(name, args);
      send([...args.matchAll(ARGUMENTS)].map(([, quoted, bare]) => quoted ?? bare));
    });
  }

  edit() {
    const text = el("textarea", { maxLength: LONGEST_TEXT, placeholder: "[r: 1d20 + 5] to hit" });
    const known = [...this.known.keys()].map((name) => el("option", { value: name }));
    const name = el("input", {
      required: true,
      pattern: TAG,
      title: "a to z, digits and _",
      list: "macro-names",
      oninput: () => (text.value = this.known.get(name.value) ?? text.value),
    });
    const put = (given) => this.table.send({ do: "setmacro", ...given });
    const closed = (does) => () => {
      byName("dialog").close();
      does();
    };
    const more = [
      button("Run", closed(() => this.run(name.value))),
      button("Remove", closed(() => put({ name: name.value, text: null }))),
      el("datalist", { id: "macro-names" }, ...known),
    ]; // prettier-ignore
    const fields = [
      ["name", "Name", name],
      ["text", "Text; how it is written stands in docs/PROTOCOL.md", text],
    ];
    ask("A macro of yours", fields, put, more);
  }
}
