"""The view of a seat, drawn: as text, and as the texts of a whole screen. Nothing here writes anywhere."""

from __future__ import annotations

import itertools
import unicodedata
from enum import Enum
from typing import TYPE_CHECKING

from .view import LAYERS, Cell, Token, View, printable

if TYPE_CHECKING:
    from .seat import Seat

How = Enum("How", "PLAIN TITLE SEEN REMEMBERED TOKEN CHOSEN")
Square = tuple[str, str, How]  # a letter and a mark: x seen, x' remembered, X* own, X+ other token, X- one kept from players
Span = tuple[int, int, str, How]  # a text at a row and a column of the screen


# ---- texts in columns
def columns_of(char: str) -> int:
    return 0 if unicodedata.combining(char) else 2 if unicodedata.east_asian_width(char) in "WF" else 1


def fitting(text: str, width: int) -> int:
    """How many characters at the front of the text take at most so many columns."""
    return sum(taken <= width for taken in itertools.accumulate(map(columns_of, text)))


def folded(text: str, width: int) -> list[str]:
    """The text as lines of at most so many columns, broken at spaces; what isn't printable is written out."""
    lines = []
    for rest in map(printable, text.split("\n")):
        while (fits := fitting(rest, max(width, 10))) < len(rest):
            fits = rest.rfind(" ", 3, fits + 1) if " " in rest[3 : fits + 1] else fits
            lines.append(rest[:fits])
            rest = "  " + rest[fits:].lstrip(" ")
        lines.append(rest)
    return lines


# ---- a map as text
def letter_of(name: str) -> str:
    """The first letter of a name that takes one column."""
    return next((char for char in name if char.isprintable() and char != " " and columns_of(char) == 1), "?")


def square_of(token: Token, chosen: bool = False) -> Square:
    own = bool(token.owners) if token.owners is not None else token.own is not None
    kept = token.owners is not None and (token.layer == "hidden" or not token.visible)
    return letter_of(token.name), "-" if kept else "*" if own else "+", How.CHOSEN if chosen else How.TOKEN


def picture(view: View, name: str, chosen: str | None = None) -> list[list[Square]]:
    """A map as rows of squares: blank where nothing was sent, tokens over the ground, upper layers and own ones last."""
    grid = view.maps[name]
    rows = [[(" ", " ", How.PLAIN)] * grid.width for _ in range(grid.height)]
    for (x, y), letter in grid.letters.items():
        rows[y][x] = (letter, " ", How.SEEN) if (x, y) in grid.seen else (letter, "'", How.REMEMBERED)
    upwards = sorted(view.on_map(name), key=lambda token: (LAYERS.index(token.layer), token.own is not None, token.id == chosen))
    for token in upwards:
        left, top = token.cell
        for row in rows[top : top + token.size]:
            row[left : left + token.size] = [square_of(token, token.id == chosen)] * token.size
    return rows


def ruler(first: int, end: int) -> str:
    """Each fifth column's number."""
    return "   " + "".join(f"{x:<10}" for x in range(first, end, 5)).rstrip()


def legend(view: View, name: str) -> list[str]:
    return [f"{letter}{mark} {token.words()}" for token in view.on_map(name) for letter, mark, _ in [square_of(token)]]


def fight_text(view: View) -> list[str]:
    """The list of the fight, `>` before whoever has the turn; nothing where the seat is shown none."""
    if view.fight is None:
        return []
    marks = {view.fight.turn: ">"}
    entries = [(marks.get(token_id, " "), value, view.tokens[token_id]) for token_id, value in view.fight.entries]
    rows = [f"{mark} {value:4} {printable(token.name)} {printable(token.id)}" for mark, value, token in entries]
    return [f"fight, round {view.fight.round}", *rows]


def map_text(view: View, name: str) -> list[str]:
    """A map and its tokens as text."""
    rows = ["".join(letter + mark for letter, mark, _ in row) for row in picture(view, name)]
    head = [f"== {view.maps[name].title()}", ruler(0, view.maps[name].width)]
    return head + [f"{y:2} {row}".rstrip() for y, row in enumerate(rows)] + legend(view, name)


# ---- the screen
def first_shown(focus: int, room: int, size: int) -> int:
    """The first column or row in the window, a multiple of 5, so that the focus is in it."""
    return 0 if size <= room else max(0, min(focus - room // 2, size - room + 4)) // 5 * 5


def map_spans(seat: Seat, name: str, height: int, width: int, pan: Cell) -> list[Span]:
    """The map beneath the title, around the chosen token or else around the cell that the arrow keys went to."""
    grid, chosen = seat.view.maps[name], seat.chosen_token()
    focus = seat.view.tokens[chosen].cell if chosen and seat.view.tokens[chosen].map == name else pan
    across, down = max(1, (width - 3) // 2), max(1, height - 1)
    left, top = first_shown(focus[0], across, grid.width), first_shown(focus[1], down, grid.height)
    spans = [(1, 0, ruler(left, min(left + across, grid.width)), How.PLAIN)]
    for row, squares in enumerate(picture(seat.view, name, chosen)[top : top + down], 2):
        spans.append((row, 0, f"{top + row - 2:2} ", How.PLAIN))
        spans += [(row, 3 + 2 * x, letter + mark, how) for x, (letter, mark, how) in enumerate(squares[left : left + across])]
    return spans


def legend_spans(seat: Seat, name: str, height: int, width: int) -> list[Span]:
    """The list of the fight and the tokens of the map beside it, where there is room."""
    beside = 2 * seat.view.maps[name].width + 5
    if width - beside <= 24:
        return []
    lines = [line for words in [*fight_text(seat.view), *legend(seat.view, name)] for line in folded(words, width - beside - 1)]
    return [(1 + row, beside, line, How.PLAIN) for row, line in enumerate(lines[:height])]


def pane_height(notes: list[str], size: tuple[int, int]) -> int:
    """How many lines of the notes are shown. A long note, as the help, takes room from the map."""
    height, width = size
    last = len(folded(notes[-1], width - 1)) if notes else 0
    return max(3, min(max(height // 4, last), height - 6))


def last_lines(notes: list[str], count: int, width: int) -> list[str]:
    """At least so many of the notes' last lines, where there are so many."""
    lines: list[str] = []
    for note in reversed(notes):
        if len(lines) >= count:
            break
        lines = folded(note, width) + lines
    return lines


def note_spans(notes: list[str], size: tuple[int, int], back: int) -> list[Span]:
    """The notes beneath the map, so many lines before the last ones."""
    (height, width), pane = size, pane_height(notes, size)
    lines = last_lines(notes, pane + back, width - 1)
    end = max(min(pane, len(lines)), len(lines) - back)
    rule = f"-- {len(lines) - end} lines further down (Ctrl-F) " if end < len(lines) else ""
    spans = [(height - pane - 2, 0, rule.ljust(width - 1, "-"), How.PLAIN)]
    return spans + [(height - 1 - pane + row, 0, line, How.PLAIN) for row, line in enumerate(lines[max(0, end - pane) : end])]


def typed_window(text: str, cursor: int, width: int) -> tuple[str, int]:
    """What is shown of the typed line so that its cursor is seen, and the cursor's column."""
    room, start = max(1, width - 4), cursor
    while start and sum(map(columns_of, text[start - 1 : cursor])) <= room:
        start -= 1
    return "> " + text[start:], 2 + sum(map(columns_of, text[start:cursor]))


def compose(
    seat: Seat, notes: list[str], text: str, size: tuple[int, int], pan: Cell = (0, 0), back: int = 0, cursor: int | None = None
) -> list[Span]:
    """The whole screen: a title, the map, its tokens beside it where there is room, the notes, and the line that is typed."""
    height, width = size
    room = max(1, height - pane_height(notes, size) - 3)
    name, chosen = seat.current_map(), seat.view.tokens.get(seat.chosen_token() or "")
    heading = seat.view.maps[name].title() if name else "you are shown no map"
    spans = [(0, 0, heading + (f"   {chosen.words()}" if chosen else ""), How.TITLE)]
    if name:
        spans += map_spans(seat, name, room, width, pan) + legend_spans(seat, name, room, width)
    shown, _ = typed_window(text, len(text) if cursor is None else cursor, width)
    return [*spans, *note_spans(notes, size, back), (height - 1, 0, shown, How.PLAIN)]
