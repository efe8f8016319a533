// What the game master's panel of a token has beside a player's.
import { button, checkbox, choice, el, labelled, row, tagOf } from "./dom.js";
import { GAME_MASTER } from "./protocol.js";
import { LAYERS } from "./view.js";

/** @param {import("./view.js").Token} token */
export function gmRows(table, players, token) {
  const put = (command) => table.send({ ...command, token: token.id });
  const isHidden = token.layer === "hidden";
  const turned = isHidden ? "token" : "hidden";
  const reveal = button(isHidden ? "Reveal" : "Hide", () => put({ do: "layer", layer: turned }));
  const copy = button("Copy", () => copyToken(table, token), { title: "Another token like this, beside it" });
  const layer = choice([...LAYERS].reverse(), token.layer, (value) => put({ do: "layer", layer: value }));
  const visible = checkbox(token.visible, (on) => put({ do: "visible", on }));
  const sights = [["", "none"], ...Object.keys(table.seat.view.sights).sort()];
  const sight = choice(sights, token.sight, (value) => put({ do: "sight", sight: value || null }));
  const owner = (seat) => {
    const box = checkbox(token.owners.includes(seat), (on) => put({ do: "own", seat, on }));
    return el("label", { title: table.nameOf(seat) }, box, String(seat));
  };
  return [
    row(reveal, copy),
    row(labelled("Layer ", layer), labelled("Visible ", visible)),
    row(labelled("Sight ", sight), el("span", {}, "Owners: "), ...players.map(owner)),
  ];
}

/** Makes another token like this one, beside it. It is hidden until it has all that it is to have. */
function copyToken(table, { name, size, map, cell: [x, y], ...token }) {
  const tag = tagOf(name, table.tagsOf(GAME_MASTER));
  const id = `${GAME_MASTER}:${tag}`;
  const fits = x + 2 * size <= table.seat.view.maps.get(map).w;
  const cell = [fits ? x + size : Math.max(0, x - size), y];
  table.send({ do: "token", tag, map, cell, name, size, layer: "hidden" });
  for (const kind of ["props", "own", "secret"])
    for (const [key, value] of token[kind]) table.panel.set(id, kind, key, value);
  for (const kind of ["sight", "light"])
    if (token[kind]) table.send({ do: kind, token: id, [kind]: token[kind] });
  if (!token.visible) table.send({ do: "visible", token: id, on: false });
  if (token.layer !== "hidden") table.send({ do: "layer", token: id, layer: token.layer });
}
