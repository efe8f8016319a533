// What the game master is asked for: maps, types of light and sight; and the players' links.
import { ask, button, el, numberField, tagOf } from "./dom.js";

const LONGEST_NAME = 24;

function nameField() {
  return el("input", { required: true, maxLength: LONGEST_NAME });
}

export function askMap(table) {
  const fields = [
    ["name", "Name", nameField()],
    ["w", "Columns", numberField(24, 1, 96)],
    ["h", "Rows", numberField(16, 1, 96)],
  ];
  ask("A new map", fields, ({ name, w, h }) => table.send({ do: "map", name: tagOf(name), w, h }));
}

/** Shows the types that there are, and asks for more. */
export function askTypes(table) {
  const { lights, sights } = table.seat.view;
  const words = (radius) => (radius < 0 ? `${-radius} cells of darkness` : `${radius} cells`);
  const known = Object.entries(lights).map(([name, radius]) => `light ${name}: ${words(radius)}`);
  for (const [name, [range, night, mult]] of Object.entries(sights))
    known.push(`sight ${name}: ${range} cells by day, ${night} in the dark, lights by ${mult}/2 of it`);
  const more = [
    button("A light…", () => askLight(table)),
    button("A darkness…", () => askDarkness(table)),
    button("A sight…", () => askSight(table)),
    el("ul", {}, ...known.map((words) => el("li", {}, words))),
  ];
  ask("Types of light and sight: all players are told their names", [], () => {}, more);
}

function askLight(table) {
  const fields = [
    ["name", "Name", nameField()],
    ["radius", "Cells", numberField(4, 1, 20)],
  ];
  const send = ({ name, radius }) => table.send({ do: "lighttype", name: tagOf(name), radius });
  ask("A type of light", fields, send);
}

/** A light type whose radius is sent below 0. */
function askDarkness(table) {
  const fields = [
    ["name", "Name", nameField()],
    ["radius", "Cells in which lights go out", numberField(2, 1, 20)],
  ];
  const send = ({ name, radius }) => table.send({ do: "lighttype", name: tagOf(name), radius: -radius });
  ask("A darkness, for a token like a light", fields, send);
}

function askSight(table) {
  const fields = [
    ["name", "Name", nameField()],
    ["range", "Cells by day", numberField(30, 0, 40)],
    ["night", "Cells at night without light", numberField(0, 0, 40)],
    ["mult", "Lights reach so many halves of their radius", numberField(2, 1, 4)],
  ];
  const send = (given) => table.send({ do: "sighttype", ...given, name: tagOf(given.name) });
  ask("A type of sight", fields, send);
}

/** Shows each player's link, with the key in it: for that player alone. */
export function showLinks(table, seats) {
  const fields = seats.map(({ key }, seat) => {
    const value = `${location.origin}/#${new URLSearchParams({ seat, key })}`;
    const link = el("input", { readOnly: true, value, onfocus: () => link.select() });
    return [`${seat}`, `For ${table.nameOf(seat)} alone`, link];
  });
  ask("Links: who has one can sit there", fields.slice(1), () => {});
}
