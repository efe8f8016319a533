// The lines of docs/PROTOCOL.md: their limits, how their parts are read, and what they say in words.

export const LONGEST_LINE = 4096; // bytes
export const LINES_IN_A_RUN = 16384; // of a seat
export const LONGEST_PATH = 64;
export const GAME_MASTER = 0;
export const TAG = "[a-z0-9_]{1,24}";

/** A line of the server that is none of the protocol, or doesn't fit what was shown before. */
export class Unreadable extends Error {}

const KINDS = {
  int: Number.isInteger,
  str: (value) => typeof value === "string",
  list: Array.isArray,
  object: (value) => typeof value === "object" && value !== null && !Array.isArray(value),
};

/**
 * The value at a key, of the kind that the protocol gives it.
 * @param {object} line
 * @param {string} key
 * @param {keyof KINDS} kind
 */
export function part(line, key, kind) {
  if (!Object.hasOwn(line, key)) throw new Unreadable(`'${key}' is missing`);
  if (!KINDS[kind](line[key])) throw new Unreadable(`'${key}' isn't of its kind`);
  return line[key];
}

/** The text with what isn't printable written out: controls, marks that turn the order of writing. */
export function printable(text) {
  return String(text).replace(/[\p{C}\p{Z}]/gu, (char) => {
    if (char === " ") return char;
    const code = char.codePointAt(0);
    const [letter, digits] = code < 0x100 ? ["x", 2] : code < 0x10000 ? ["u", 4] : ["U", 8];
    return `\\${letter}${code.toString(16).padStart(digits, "0")}`;
  });
}

export function seatWords(number) {
  return number === GAME_MASTER ? "GM" : `seat ${number}`;
}

const ADDRESSES = { all: "", gm: " to the GM", self: " to self", gmself: " to the GM and self" };

export function messageWords(line) {
  const to = Object.hasOwn(ADDRESSES, line.to) ? ADDRESSES[line.to] : ` to seat ${line.to}`;
  return `${seatWords(part(line, "from", "int"))}${to}: ${printable(part(line, "text", "str"))}`;
}

const REFUSALS = {
  BadJson: "that was no JSON",
  BadCommand: "there is no such command",
  GmOnly: "only the game master may do that",
  BadField: "a field is missing, of another kind, out of its range or unknown",
  NotYours: "you have no such token to act on",
  NotMaker: "only who made a token may remove it",
  MapNotShown: "you are shown no such map",
  OffMap: "that isn't on the map",
  BadPath: "each step goes to a neighbouring cell, the first from where the token stands",
  TagUsed: "you have used that name for a token before",
  TagsSpent: "you have made as many tokens as a player may in one campaign, 16",
  NotExposed: "you know nothing of that cell",
  UnknownLight: "there is no such type of light",
  NoSuchSeat: "there is no such seat",
  NoSuchMacro: "you have no macro of that name",
  MacroLimit: "you have 32 macros",
  PropertyLimit: "the token has 64 properties of that class",
  BadDice: "those are no dice; 2d6+1 would be some",
  DiceLimit: "too many dice, or too many sides",
  Overflow: "a number grew too great",
  MacroSyntax: "the macro's text is off its grammar",
  MacroBudget: "the macro went on for too long",
  MacroFault: "the macro stopped",
  BadKey: "that key doesn't open that seat",
  SeatTaken: "somebody sits there",
  Spent: "the seat has had all its lines in this run",
  NoHello: "the seat isn't taken",
  MapExists: "there is a map of that name",
  MapLimit: "there are 8 maps",
  NoSuchMap: "there is no such map",
  WallLimit: "the map has 2,048 walls of that kind",
  DegenerateWall: "a wall has two different ends",
  WallThere: "that wall is there",
  NoSuchWall: "there is no such wall",
  TypeLimit: "there are 32 types",
  BadRadius: "a light reaches 1 to 20 cells, a darkness -20 to -1",
  BadRange: "a sight reaches 0 to 40 cells by day and at night, and multiplies lights by 1 to 4",
  IdUsed: "you have used that name for a token before",
  TokenLimit: "you have made 2,048 tokens",
  NoSuchToken: "there is no such token",
  UnknownSight: "there is no such type of sight",
  PlayersOnly: "the game master makes tokens with 'token'",
  NotAPlayer: "seat 0 is the game master's",
  NotListed: "the token isn't in the fight",
  EmptyList: "nobody is in the fight",
};

export function refusalWords(line) {
  const name = part(line, "refused", "str");
  const sentence = Object.hasOwn(REFUSALS, name) ? REFUSALS[name] : printable(name);
  const words = [`refused (${printable(name)}): ${sentence}`];
  if ("kind" in line) words.push(printable(line.kind));
  if ("field" in line) words.push(`field ${printable(line.field)}`);
  if ("at" in line) words.push(`at byte ${printable(line.at)}`);
  return words.join(", ");
}
