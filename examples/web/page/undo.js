// What takes back a game master's command: commands that make it as it was, as far as there are any.

const MOST_LINES = 48; // that one command's undoing may take
const MOST_REMEMBERED = 500;

/**
 * The commands that undo one, by what is shown before it is sent; none where nothing undoes it.
 * @returns {?object[]}
 */
export function inverse(command, view) {
  const token = view.tokens.get(command.token);
  const grid = view.maps.get(command.map);
  const back = () => token && [{ do: "place", token: token.id, map: token.map, cell: token.cell }];
  const as = (what) => token && [{ ...command, [what]: token[what] }];
  const how = {
    wall: () => [{ ...command, do: "unwall" }],
    unwall: () => [{ ...command, do: "wall" }],
    mode: () => grid && [{ ...command, mode: grid.mode }],
    show: () => grid && [{ ...command, on: grid.shown }],
    trail: () => [{ ...command, on: !command.on }],
    terrain: () => grid && lettersOf(command, grid),
    token: () => [{ do: "remove", token: `0:${command.tag}` }],
    place: back,
    move: back,
    layer: () => as("layer"),
    sight: () => as("sight"),
    light: () => as("light"),
    visible: () => token && [{ ...command, on: token.visible }],
    own: () => token && [{ ...command, on: token.owners.includes(command.seat) }],
    init: () => token && [entryOf(command, view)],
    uninit: () => token && [entryOf(command, view)],
    secret: () => token && valueOf(command, token.secret),
    setprop: () => token && valueOf(command, command.class === "own" ? token.own : token.props),
  };
  const found = Object.hasOwn(how, command.do) ? how[command.do]() : null;
  return found && found.length <= MOST_LINES ? found : null;
}

/** The token's entry in the fight as it is, or that it has none. */
function entryOf({ token }, view) {
  const value = view.valueOf(token);
  return value === null ? { do: "uninit", token } : { do: "init", token, value };
}

/** A property that wasn't there can't be taken away again. */
function valueOf(command, props) {
  const before = props.find(([name]) => name === command.name);
  return before ? [{ ...command, value: before[1] }] : null;
}

/** The letters that a rectangle has, as rectangles of one row and one letter each. */
function lettersOf({ map, rect: [x, y, w, h] }, grid) {
  const found = [];
  for (let row = y; row < y + h; row++)
    for (let first = x, end; first < x + w; first = end) {
      const kind = grid.letter([first, row]);
      for (end = first + 1; end < x + w && grid.letter([end, row]) === kind; ) end++;
      found.push({ do: "terrain", map, rect: [first, row, end - first, 1], kind });
    }
  return found;
}

/** What was done lately, by gestures: a gesture is all that one press of a button or the pointer sent. */
export class Undo {
  /** @type {{gesture: number, back: object[]}[]} */
  done = [];
  gesture = 0;
  open = false;

  /** What is to be remembered with a command that is sent. */
  of(command, view) {
    if (!this.open) {
      this.open = true;
      this.gesture += 1;
      setTimeout(() => (this.open = false));
    }
    return { back: inverse(command, view), gesture: this.gesture };
  }

  /** A command was carried out. */
  did({ back, gesture }) {
    if (back) this.done.push({ gesture, back });
    if (this.done.length > MOST_REMEMBERED) this.done.shift();
  }

  /** The commands that undo the last gesture, which is forgotten. */
  take() {
    const last = this.done.at(-1)?.gesture;
    const found = [];
    while (this.done.length && this.done.at(-1).gesture === last) found.push(...this.done.pop().back);
    return found;
  }
}
