// How things on a map look.
import { printable } from "./protocol.js";

/** A colour and a guess for each letter; what letters mean the game master says. */
export const TERRAIN = {
  ".": ["#8d8571", "open ground"],
  a: ["#6f6a6a", "ash"],
  b: ["#8a5f3c", "boards"],
  c: ["#7d3140", "carpet"],
  d: ["#8b6b43", "dirt"],
  e: ["#6a5236", "earth"],
  f: ["#a48f6d", "floor"],
  g: ["#5d8a3f", "grass"],
  h: ["#3f6b34", "hedge"],
  i: ["#a9cfdc", "ice"],
  j: ["#2f5f42", "jungle"],
  k: ["#4b4350", "rubble"],
  l: ["#c2531f", "lava"],
  m: ["#5b5a33", "mud"],
  n: ["#3d4d63", "night soil"],
  o: ["#b58a2e", "ochre"],
  p: ["#9b7448", "planks"],
  q: ["#b3a05a", "quicksand"],
  r: ["#a88e62", "road"],
  s: ["#83868c", "stone"],
  t: ["#35582b", "thicket"],
  u: ["#7a5560", "umber"],
  v: ["#57427c", "void"],
  w: ["#2f6fb0", "water"],
  x: ["#57524d", "rock"],
  y: ["#c9b568", "straw"],
  z: ["#7c939b", "zinc"],
};

export const WALL_COLOURS = {
  both: ["#ffb04d", "wall"],
  vbl: ["#f5ef6a", "blocks sight only"],
  mbl: ["#6ad0f5", "blocks movement only"],
  door: ["#8fe08a", "open door"],
};

export const OWN_COLOUR = "#f3c14b";
export const OTHER_COLOUR = "#f5f1e8";
export const DRAWN_COLOUR = "#ff5ad1"; // of what is being drawn

/** A colour of a token's own, always the same for an id. */
export function colourOf(id) {
  let sum = 7;
  for (const char of id) sum = (sum * 31 + char.codePointAt(0)) % 360;
  return `hsl(${(sum * 47) % 360} 55% 42%)`;
}

/** The one or two letters that stand on a token. */
export function initials(name) {
  const words = printable(name).split(/[\s_-]+/u).filter(Boolean); // prettier-ignore
  const [first = "?", last = null] = [words[0], words.length > 1 ? words.at(-1) : null];
  const letters = last ? [[...first][0], [...last][0]] : [...first].slice(0, 2);
  return letters[0].toUpperCase() + letters.slice(1).join("");
}
