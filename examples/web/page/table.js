// A seat at the table: its connection, what happens there, and what is chosen and shown.
import { Board } from "./board.js";
import { Connection } from "./connection.js";
import { button, byName } from "./dom.js";
import { Fight } from "./fight.js";
import { clamped, straightPath, wayWords } from "./geometry.js";
import { Hands } from "./hands.js";
import { Heading } from "./heading.js";
import { Keyboard } from "./keyboard.js";
import { Macros } from "./macros.js";
import { Panel } from "./panel.js";
import { GAME_MASTER, LINES_IN_A_RUN, printable, seatWords } from "./protocol.js";
import { Seat } from "./seat.js";
import { Talk } from "./talk.js";
import { Tools } from "./tools.js";
import { mayAct, tokenWords } from "./view.js";
import { Walk } from "./walk.js";

const FEW_LINES = 1000; // of those that a seat has in a run
const LAST_SEAT = "nafisowe"; // under which a tab keeps where it sits

export class Table {
  /** @type {?Seat} */
  seat = null;
  /** @type {?Connection} */
  connection = null;
  /** @type {?Tools} the game master's */
  tools = null;
  chosen = null; // the token that was asked for, by its id
  lookedAt = null; // the map that was asked for
  isFresh = false; // nothing was shown yet since sitting down

  constructor() {
    this.board = new Board(byName("board"));
    this.walk = new Walk(this);
    this.heading = new Heading(this);
    this.talk = new Talk(this);
    this.macros = new Macros(this);
    this.fight = new Fight(this);
    this.panel = new Panel(this);
    this.hands = new Hands(this);
    this.keyboard = new Keyboard(this);
    byName("hello").addEventListener("submit", (event) => {
      event.preventDefault();
      this.sit(Number(byName("seat").value), byName("key").value);
    });
    window.addEventListener("hashchange", () => this.readLink());
    this.readLink();
  }

  /**
   * Reads a link of the form /#seat=1&key=..: what is behind the # is never sent to a server, and goes from
   * the address at once. For a page that is loaded again the browser keeps both, as long as its tab is open.
   */
  readLink() {
    const words = new URLSearchParams(location.hash.slice(1) || sessionStorage.getItem(LAST_SEAT));
    if (!words.has("key")) return;
    byName("seat").value = words.get("seat");
    byName("key").value = words.get("key");
    history.replaceState(null, "", location.pathname);
  }

  // ---- the connection
  sit(number, key) {
    const seat = new Seat(number);
    this.seat = seat;
    this.hello = { do: "hello", seat: number, key };
    byName("why").textContent = "";
    // What a connection that was given up still tells isn't heard.
    const ifHere = (does) => (given) => this.seat === seat && does(given);
    this.connection?.close();
    this.connection = new Connection({
      opened: ifHere(() => this.send(this.hello)),
      came: ifHere((line) => seat.take(line).forEach((event) => this.happened(event))),
      closed: ifHere((words) => this.closed(words)),
    });
  }

  /** Sends a command; `more` is remembered with it. Whether it went out. */
  send(command, more = {}) {
    if (!this.connection?.isOpen || this.seat.ended !== null) {
      this.note("that wasn't sent: there is no connection", "bad");
      return false;
    }
    try {
      const undoing = this.tools?.undo.of(command, this.seat.view);
      this.connection.send(this.seat.put(command, { ...undoing, ...more }));
      return true;
    } catch (fault) {
      this.note(fault.message, "bad"); // a line that is too long
      return false;
    }
  }

  closed(words) {
    this.seat.ended ??= words;
    this.walk.stop();
    if (byName("table").hidden) byName("why").textContent = this.seat.ended;
    else this.showBanner(this.seat.ended);
  }

  showBanner(words) {
    const again = button("Sit down again", () => this.sit(this.hello.seat, this.hello.key));
    const other = button("Another seat", () => location.reload());
    byName("banner").replaceChildren(`${words}. `, again, other);
    byName("banner").hidden = false;
    byName("sheet").className = "broken";
    this.note(words, "bad");
  }

  // ---- what the server tells
  /** @param {import("./seat.js").Event} event */
  happened(event) {
    const heed = {
      joined: () => this.joined(),
      view: () => this.looked(event),
      message: () => this.talk.message(event),
      moved: () => this.moved(event),
      refused: () => this.refused(event),
      ok: () => this.carriedOut(event),
      dump: () => this.tools?.dumped(event),
      ended: () => this.connection.close(),
    };
    heed[event.kind]();
    const isAnswer = !["view", "message"].includes(event.kind);
    if (isAnswer && this.seat.count === LINES_IN_A_RUN - FEW_LINES)
      this.note(`this seat has ${FEW_LINES} lines left in this run of the table`, "bad");
  }

  joined() {
    this.isFresh = true;
    const { seat, key } = this.hello;
    sessionStorage.setItem(LAST_SEAT, new URLSearchParams({ seat, key }));
    for (const id of ["hall", "banner"]) byName(id).hidden = true;
    byName("sheet").className = "";
    byName("table").hidden = false;
    this.heading.showSeat();
    this.note(`you sit at seat ${seat}; seat ${GAME_MASTER} is the game master's`, "event");
    this.tools = this.seat.isGm ? new Tools(this) : null;
    if (this.seat.isGm) this.send({ do: "dump" }); // which alone tells walls
    this.macros.recall();
    this.board.resize();
    this.board.canvas.focus();
  }

  looked({ came, gone, turn }) {
    // The game master is shown all, and is told of what others did alone.
    const isTold = (token) => !this.isFresh && (!this.seat.isGm || !token.id.startsWith(`${GAME_MASTER}:`));
    const where = ({ cell, map }) => (this.seat.isGm ? `${cell}, ${map}` : `${cell}`);
    for (const token of came.filter(isTold))
      this.note(`${printable(token.name)} is seen at ${where(token)}`, "event");
    for (const token of gone.filter(isTold)) this.note(`${printable(token.name)} is seen no more`, "event");
    if (turn && !this.isFresh)
      this.note(`round ${this.seat.view.fight.round}: ${printable(turn.name)} has the turn`, "event");
    this.isFresh = false;
    this.refresh(true);
    this.walk.pump();
  }

  moved({ moved, of, sent }) {
    this.tools?.undo.did(sent);
    if (moved < of) {
      this.note(`stopped after ${moved} of ${of} steps`, "event");
      this.walk.stop();
    }
    this.refresh(true);
    this.walk.goOn();
  }

  refused({ words, name, sent }) {
    this.note(sent ? `${words} (${sent.do})` : words, "bad");
    this.walk.stop();
    if (name === "NoSuchMacro") this.macros.forget(sent.name);
    this.refresh();
  }

  carriedOut({ command, sent }) {
    this.tools?.undo.did(sent);
    if (command === "make") this.chosen = `${this.seat.number}:${sent.tag}`; // which the change line shows
    if (command === "setmacro" || command === "macro") this.macros.carriedOut(command, sent);
    if (command === "wall" || command === "unwall") this.refresh();
    this.tools?.carriedOut(command, sent);
  }

  // ---- what is chosen
  tokens() {
    return this.seat.view.tokens;
  }

  /** The tags of a seat's tokens that are shown. */
  tagsOf(number) {
    const ids = [...this.tokens().keys()].map((id) => id.split(":"));
    return ids.filter(([maker]) => Number(maker) === number).map(([, tag]) => tag);
  }

  /** The token that is chosen; a player's first one where none is. */
  chosenToken() {
    const chosen = this.tokens().get(this.chosen) ?? null;
    return chosen || this.seat.isGm ? chosen : (this.seat.view.inOrder().find(mayAct) ?? null);
  }

  /** The chosen token, if the seat may act on it. */
  acting() {
    const token = this.chosenToken();
    return token && mayAct(token) ? token : null;
  }

  /** The map that was asked for, else that of the chosen token, one that players are shown, or any. */
  mapName() {
    const { maps } = this.seat.view;
    const names = this.seat.view.mapNames();
    const shown = names.find((name) => maps.get(name).shown);
    const wanted = [this.lookedAt, this.chosenToken()?.map, shown, ...names];
    return wanted.find((name) => maps.has(name)) ?? null;
  }

  grid() {
    return this.seat.view.maps.get(this.mapName()) ?? null;
  }

  choose(id) {
    this.chosen = id;
    const token = this.chosenToken();
    if (token && !(this.seat.isGm && token.map !== this.mapName())) this.lookedAt = null;
    this.refresh(true);
  }

  chooseNext(by) {
    const onMap = this.seat.view.onMap(this.mapName()).filter(mayAct);
    const at = onMap.findIndex(({ id }) => id === this.chosenToken()?.id);
    if (onMap.length) this.choose(onMap[(at + by + onMap.length) % onMap.length].id);
    const token = this.chosenToken();
    if (token) this.tell(tokenWords(token));
  }

  look(name) {
    this.lookedAt = name;
    this.refresh();
  }

  lookAtNext() {
    const names = this.seat.view.mapNames();
    this.look(names[(names.indexOf(this.mapName()) + 1) % names.length]);
    this.tell(this.grid().title());
  }

  /** A seat by its number; for the game master, who is told owners, also by a token that it owns. */
  nameOf(number) {
    const isTold = this.seat.isGm && number !== GAME_MASTER;
    const owned = isTold ? this.seat.view.inOrder().filter(({ owners }) => owners.includes(number)) : [];
    const token = owned.find(({ id }) => id.startsWith(`${number}:`)) ?? owned[0];
    return seatWords(number) + (token ? `, ${printable(token.name)}` : "");
  }

  /** Where a token's first cell is to be, so that its middle is at the cell. */
  cornerAt({ size }, [x, y]) {
    const back = (size - 1) >> 1;
    const { w, h } = this.board.grid;
    return [clamped(x - back, 0, w - size), clamped(y - back, 0, h - size)];
  }

  // ---- what is shown
  /** Shows what is so now; with `follow` the window goes where the chosen token is. */
  refresh(follow = false) {
    const [name, grid, token] = [this.mapName(), this.grid(), this.chosenToken()];
    this.board.chosen = token?.id ?? null;
    this.board.show({ grid, tokens: this.seat.view.onMap(name), ...this.tools?.overlay(grid) });
    if (follow && !this.board.fitted && token?.map === name) this.board.follow(token.cell);
    this.preview();
    this.heading.show();
    this.talk.showAddresses();
    this.fight.show();
    this.panel.show();
    this.tools?.show();
  }

  /** Shows the way of the move that a click would send, and what is beneath the pointer. */
  preview() {
    const [token, cell] = [this.acting(), this.board.hover];
    const isWay = cell && token && !this.tools?.tool && token.map === this.mapName();
    const fits = isWay && this.board.grid?.has(cell);
    this.board.path = fits ? straightPath(token.cell, this.cornerAt(token, cell)) : [];
    if (cell && !this.board.cursor) this.tell(this.wordsOf(cell));
    this.board.draw();
  }

  /** A cell in words. */
  wordsOf(cell) {
    const { board } = this;
    if (!board.grid?.has(cell)) return "";
    const token = board.tokenAt(cell);
    const way = board.path.length ? `${board.path.length} steps` : "";
    const words = [`${cell}`, board.groundWords(cell), token ? tokenWords(token) : "", way];
    return words.filter(Boolean).join(" · ");
  }

  /** Says in the log what is on the map. */
  describe() {
    const grid = this.grid();
    const many = (cells) => cells.reduce((sum, cell) => sum + (cell ? 1 : 0), 0);
    const [seen, known] = [many(grid.seen), many(grid.letters)];
    this.note(`${grid.title()}: ${seen} cells are seen now, ${known} are known`, "event");
    const here = this.chosenToken();
    for (const token of this.seat.view.onMap(grid.name)) {
      const isFar = here?.map === grid.name && here.id !== token.id;
      this.note(tokenWords(token) + (isFar ? `; ${wayWords(here.cell, token.cell)}` : ""), "event");
    }
  }

  /** Says something in the log. */
  note(words, kind) {
    this.talk.note(words, kind);
  }

  /** Says something beneath the map, where a screen reader reads it out. */
  tell(words) {
    byName("here").textContent = words;
  }
}
