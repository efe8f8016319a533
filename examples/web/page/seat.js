// A seat's session without its connection and without a page: what was sent and waits for an answer, and what
// each line of the server means. It keeps to docs/PROTOCOL.md, "Writing a client".
import {
  GAME_MASTER, LINES_IN_A_RUN, LONGEST_LINE, Unreadable, messageWords, part, printable, refusalWords,
} from "./protocol.js"; // prettier-ignore
import { View } from "./view.js";
import { Walls } from "./walls.js";

const bytes = new TextEncoder();
// The text of a campaign as it came: a number of it may be greater than what a number here holds exactly.
const DUMP = /^\{"dump":(.*),"n":[0-9]+,"ok":"dump"\}$/s;

/**
 * What happened, as a line of the server tells it. Beside `kind`:
 * joined; view: the tokens that came, those that are gone, and the one that has got the turn;
 * message: from, to, text, words;
 * refused: name, words, sent; moved: moved, of, sent; dump: text, sent; ok: command, sent; ended: words.
 * @typedef {{kind: string}} Event
 */

/** `put` gives the text of a line to send, `take` what a line of the server means. */
export class Seat {
  view = new View();
  joined = false;
  ended = null; // why, once it has
  seats = 0; // of the table
  count = 0; // lines that the server has counted
  /** @type {object[]} commands without an answer, in order */
  sent = [];
  /** @type {?Walls} */
  walls = null;
  /** @type {Map<string, ?string>} by name; of some the text isn't known */
  macros = new Map();

  constructor(number) {
    this.number = number;
  }

  get isGm() {
    return this.number === GAME_MASTER;
  }

  /** `more` is remembered with the command that was sent, and doesn't go out. */
  put(command, more = {}) {
    const text = JSON.stringify(command);
    const many = bytes.encode(text).length;
    if (many > LONGEST_LINE)
      throw new RangeError(`that makes a line of ${many} bytes; at most ${LONGEST_LINE} can be sent`);
    this.sent.push({ ...command, ...more });
    return text;
  }

  /** Whether a line of that command waits for its answer. */
  waits(name) {
    return this.sent.some((command) => command.do === name);
  }

  /**
   * Takes in a line of the server. One that can't be read ends the session.
   * @param {string} text
   * @returns {Event[]}
   */
  take(text) {
    if (this.ended !== null) return [];
    try {
      return this.#takeLine(JSON.parse(text), text);
    } catch (fault) {
      const words = `the server sent a line that can't be read (${fault.message})`;
      return this.#end(`${words}: ${printable(text.slice(0, 80))}`);
    }
  }

  #end(words) {
    this.ended = words;
    return [{ kind: "ended", words }];
  }

  #takeLine(line, text) {
    if ("full" in line) return this.#looked(() => (this.view = View.read(line.full)));
    if ("change" in line) return this.#looked(() => this.view.apply(line.change));
    if ("from" in line) return [{ ...line, kind: "message", words: messageWords(line) }];
    if ("refused" in line) return this.#takeRefusal(line);
    if ("ok" in line) return this.#takeReply(line, text);
    throw new Unreadable("it is none of the protocol's lines");
  }

  /** What a look tells: which tokens came into view, which went, and whose turn has begun. */
  #looked(change) {
    const { fight } = this.view;
    const before = new Map(this.view.tokens);
    change();
    const now = this.view.fight;
    const isOther = now && (now.turn !== fight?.turn || now.round !== fight.round);
    const turn = (isOther && this.view.tokens.get(now.turn)) || null;
    const came = [...this.view.tokens.values()].filter((token) => !before.has(token.id));
    const gone = [...before.values()].filter((token) => !this.view.tokens.has(token.id));
    return [{ kind: "view", came, gone, turn }];
  }

  #takeRefusal(line) {
    const sent = this.sent.shift();
    const words = refusalWords(line);
    if (!this.joined) return this.#end(`the server refused the hello: ${words}`);
    this.count = line.n;
    return [{ kind: "refused", name: line.refused, words, sent }, ...this.#last(line)];
  }

  #takeReply(line, text) {
    const sent = this.sent.shift() ?? {};
    const command = part(line, "ok", "str");
    this.count = part(line, "n", "int");
    if (command === "bye") return this.#end("you left the table");
    return [this.#carriedOut(command, sent, line, text), ...this.#last(line)];
  }

  #carriedOut(command, sent, line, text) {
    if (command === "hello") {
      this.joined = true;
      this.seats = part(line, "seats", "int");
      return { kind: "joined" };
    }
    if (command === "move") return this.#takeSteps(sent, part(line, "moved", "int"));
    if (command === "dump") return this.#takeDump(part(line, "dump", "object"), text, sent);
    if (command === "wall" || command === "unwall") this.walls?.take(sent);
    if (command === "trail") this.walls?.takeTrail(sent);
    if (command === "setmacro" && sent.do === "setmacro") this.#takeMacro(sent);
    return { kind: "ok", command, sent };
  }

  #last(line) {
    if (line.n !== LINES_IN_A_RUN) return [];
    return this.#end("that was the last line that the seat has in this run");
  }

  /** The reply tells where the token stands before the change line does, so further steps go on from there. */
  #takeSteps(sent, moved) {
    const path = sent.path ?? [];
    const token = this.view.tokens.get(sent.token);
    if (token && moved > 0 && moved <= path.length)
      this.view.tokens.set(token.id, { ...token, cell: path[moved - 1] });
    return { kind: "moved", sent, moved, of: path.length };
  }

  #takeMacro({ name, text }) {
    if (text === null) this.macros.delete(name);
    else this.macros.set(name, text);
  }

  #takeDump(dump, text, sent) {
    this.walls = new Walls(dump);
    this.macros = new Map(Object.entries(dump.seats[GAME_MASTER].macros));
    return { kind: "dump", text: DUMP.exec(text)?.[1] ?? JSON.stringify(dump), sent };
  }
}
