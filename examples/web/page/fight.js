// The fight beside the map: who stands in its list, and whose turn it is.
import { button, byName, el, labelled, numberField, quiet, row } from "./dom.js";
import { printable } from "./protocol.js";
import { tokenWords } from "./view.js";

const [LEAST, MOST] = [-1000, 1000]; // values of an entry

export class Fight {
  shown = null; // what was shown last

  constructor(table) {
    this.table = table;
    this.panel = byName("fight");
  }

  show() {
    const { fight, tokens } = this.table.seat.view;
    const names = fight?.list.map(([id]) => printable(tokens.get(id).name));
    const state = JSON.stringify([fight, names]);
    if (state === this.shown) return;
    this.shown = state;
    this.panel.hidden = !fight;
    this.panel.replaceChildren(...(fight ? this.parts(fight) : []));
  }

  parts({ list, round, turn }) {
    const { seat } = this.table;
    const title = el("h2", {}, "Fight ", quiet(round ? `round ${round}` : "nobody's turn yet"));
    const entries = list.map((entry) => el("li", {}, this.entry(entry, turn)));
    const does = seat.isGm && row(this.gmButton("Turn", "turn"), this.gmButton("End fight", "endfight"));
    return [title, el("ol", { class: "tokens" }, ...entries), does].filter(Boolean);
  }

  /** An entry of the list, which chooses its token. */
  entry([id, value], turn) {
    const token = this.table.tokens().get(id);
    const given = { title: tokenWords(token), ...(id === turn && { "aria-current": "true" }) };
    return button(`${value} ${printable(token.name)}`, () => this.table.choose(id), given);
  }

  gmButton(words, name) {
    return button(words, () => this.table.send({ do: name }));
  }
}

/** The row of a token's panel that puts it in the fight, and takes it out. */
export function fightRow(table, { id }) {
  const value = table.seat.view.valueOf(id);
  const command = () => ({ do: "init", token: id, value: Number(field.value) });
  const put = () => field.reportValidity() && table.send(command());
  const onkeydown = (event) => event.key === "Enter" && put() && field.blur();
  const field = numberField(value ?? 0, LEAST, MOST, { onkeydown });
  const out = value !== null && button("Take out", () => table.send({ do: "uninit", token: id }));
  return row(labelled("In the fight by ", field), button(value === null ? "Enter" : "Change", put), out);
}
