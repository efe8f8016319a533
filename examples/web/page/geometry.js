// Ways and rectangles of cells.
import { LONGEST_PATH } from "./protocol.js";

/** The cells of a straight way of king's steps, without its begin; cut off at the longest path of a line. */
export function straightPath([x, y], [toX, toY]) {
  const [right, down] = [toX - x, toY - y];
  const many = Math.max(Math.abs(right), Math.abs(down));
  const at = (from, far, step) => from + Math.round((far * step) / many);
  const cells = [];
  for (let step = 1; step <= Math.min(many, LONGEST_PATH); step++)
    cells.push([at(x, right, step), at(y, down, step)]);
  return cells;
}

/** The rectangle [x, y, w, h] between two cells, both in it. */
export function rectOf([ax, ay], [bx, by]) {
  return [Math.min(ax, bx), Math.min(ay, by), Math.abs(ax - bx) + 1, Math.abs(ay - by) + 1];
}

/** The value that is nearest to one, of those from least to most. */
export function clamped(value, least, most) {
  return Math.max(least, Math.min(most, value));
}

/** How one goes from a cell to another, as `3 east, 1 north`. */
export function wayWords([fromX, fromY], [toX, toY]) {
  const part = (far, back, on) => (far ? `${Math.abs(far)} ${far > 0 ? on : back}` : "");
  const parts = [part(toX - fromX, "west", "east"), part(toY - fromY, "north", "south")];
  return parts.filter(Boolean).join(", ") || "here";
}
