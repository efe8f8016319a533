// Talk beneath the map: what was said and what happened, and dice.
import { button, byName, el, numberField, offer } from "./dom.js";
import { GAME_MASTER, printable, seatWords } from "./protocol.js";

const SIDES = [4, 6, 8, 10, 12, 20, 100];
const LONGEST_LOG = 500; // lines
const AT_END = 40; // points of the screen; who has scrolled further up stays there
const ROLL = /^\/(?:r|roll) +(.*)$/;

export class Talk {
  /** @type {Map<string, string>} what each address is called */
  addresses = new Map();

  constructor(table) {
    this.table = table;
    byName("speak").append(el("button", { value: "roll" }, "Roll"));
    byName("speak").addEventListener("submit", (event) => {
      event.preventDefault();
      this.speak(event.submitter?.value === "roll");
    });
    this.many = numberField(1, 1, 100, { "aria-label": "How many dice" });
    this.added = numberField(0, -999, 999, { "aria-label": "Added" });
    const dice = SIDES.map((sides) => button(`d${sides}`, () => this.roll(sides)));
    byName("dice").append(this.many, ...dice, el("span", { "aria-hidden": "true" }, "+"), this.added);
  }

  /** Whom the next line is for, as the field `to` of a command. */
  to() {
    const word = byName("to").value;
    return /^[0-9]+$/.test(word) ? Number(word) : word;
  }

  /** Says what was typed; `/r 2d6` and the button Roll roll it. */
  speak(rolls) {
    const text = byName("text").value;
    if (!text) return;
    const dice = ROLL.exec(text)?.[1] ?? (rolls ? text : null);
    const what = dice === null ? { do: "say", text } : { do: "roll", dice: dice.replaceAll(" ", "") };
    if (this.table.send({ ...what, to: this.to() })) byName("text").value = "";
  }

  roll(sides) {
    const added = Math.trunc(Number(this.added.value)) || 0;
    const sign = added > 0 ? `+${added}` : added < 0 ? String(added) : "";
    this.table.send({ do: "roll", dice: `${Number(this.many.value) || 1}d${sides}${sign}`, to: this.to() });
  }

  showAddresses() {
    const { number: own, seats } = this.table.seat;
    const numbers = Array.from({ length: seats }, (_, number) => number);
    const others = numbers.filter((number) => number !== GAME_MASTER && number !== own);
    const addresses = [
      ["all", "to all"],
      ["gm", "to the GM"],
      ["self", "to myself"],
      ["gmself", "to the GM and me"],
      ...others.map((number) => [String(number), `to ${this.table.nameOf(number)}`]),
    ];
    const state = JSON.stringify(addresses);
    if (state === this.shown) return;
    this.shown = state;
    this.addresses = new Map(addresses);
    offer(byName("to"), addresses, byName("to").value || "all");
  }

  // ---- the log
  message({ from, to, text }) {
    const who = from === this.table.seat.number ? "you" : this.table.nameOf(from);
    const whom = to === "all" ? ": " : ` ${this.addresses.get(String(to)) ?? `to ${seatWords(to)}`}: `;
    const given = { class: to === "all" ? "" : "whisper" };
    this.log(el("li", given, el("b", {}, who), whom, el("bdi", {}, printable(text))));
  }

  /** @param {"event"|"bad"} kind */
  note(words, kind) {
    this.log(el("li", { class: kind }, words));
  }

  log(line) {
    const log = byName("log");
    const isAtEnd = log.scrollHeight - log.scrollTop - log.clientHeight < AT_END;
    log.append(line);
    while (log.children.length > LONGEST_LOG) log.firstChild.remove();
    if (isAtEnd) log.scrollTop = log.scrollHeight;
  }
}
