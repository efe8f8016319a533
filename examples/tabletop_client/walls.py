"""The walls of a dumped campaign, drawn. No view has them, so the game master sees them by a dump alone."""

from __future__ import annotations

from dataclasses import dataclass
from typing import Iterator

from .drawing import letter_of
from .view import Cell, Object

SIGHT, MOVEMENT = "vbl", "mbl"
MARKS = {frozenset({SIGHT, MOVEMENT}): "#", frozenset({SIGHT}): "~", frozenset({MOVEMENT}): "="}
TITLES = {"#": "block sight and movement (vbl and mbl)", "~": "block sight alone (vbl)", "=": "block movement alone (mbl)"}
Rectangle = tuple[int, int, int, int]  # x, y, width and height, in cells


@dataclass(frozen=True, order=True)
class Wall:
    """A wall from point to point, counted in half cells: the cell 2,0 has the corners 4,0 and 6,2."""

    ax: int
    ay: int
    bx: int
    by: int

    def points(self) -> Iterator[Cell]:
        """The points of half cells that it goes through, or by."""
        across, down = self.bx - self.ax, self.by - self.ay
        steps = max(abs(across), abs(down))
        for step in range(steps + 1):
            yield self.ax + round(across * step / steps), self.ay + round(down * step / steps)

    def words(self) -> str:
        return f"{self.ax},{self.ay} {self.bx},{self.by}"


def marked(drawn: Object) -> dict[Wall, str]:
    """The walls of a map of a campaign text, each with the mark of what it blocks."""
    kinds: dict[Wall, set[str]] = {}
    for kind in (SIGHT, MOVEMENT):
        for ends in drawn.get(kind, []):
            kinds.setdefault(Wall(*ends), set()).add(kind)
    return {wall: MARKS[frozenset(of)] for wall, of in sorted(kinds.items())}


def canvas_of(campaign: Object, drawn: Object) -> list[list[str]]:
    """The map with two columns and two rows a cell: letters and tokens in the cells, and room for walls between them."""
    canvas = [[" "] * (2 * drawn["w"] + 1) for _ in range(2 * drawn["h"] + 1)]
    for y, letters in enumerate(drawn["rows"]):
        for x, letter in enumerate(letters):
            canvas[2 * y + 1][2 * x + 1] = letter
    for token in campaign["tokens"]:
        if token["map"] == drawn["name"]:
            left, top = token["cell"]
            for row in canvas[2 * top + 1 : 2 * (top + token["size"]) : 2]:
                row[2 * left + 1 : 2 * (left + token["size"]) : 2] = [letter_of(token["name"])] * token["size"]
    return canvas


def walls_text(campaign: Object, name: str, rect: Rectangle | None = None) -> str:
    """A map, or a rectangle of it, with its walls, and the walls as `wall` and `unwall` name them."""
    drawn = next((each for each in campaign["maps"] if each["name"] == name), None)
    if drawn is None:
        return f"there is no map {name}"
    x, y, w, h = rect or (0, 0, drawn["w"], drawn["h"])
    left, top, right, bottom = max(0, 2 * x), max(0, 2 * y), min(2 * (x + w), 2 * drawn["w"]), min(2 * (y + h), 2 * drawn["h"])
    canvas, walls = canvas_of(campaign, drawn), marked(drawn)
    within: dict[str, list[str]] = {mark: [] for mark in TITLES}
    for wall, mark in walls.items():
        points = [(px, py) for px, py in wall.points() if left <= px <= right and top <= py <= bottom]
        for px, py in points:
            canvas[py][px] = mark if canvas[py][px] in (" ", mark) or (px % 2 and py % 2) else "#"
        within[mark] += [wall.words()] if points else []
    lines = [f"walls of {name}, in half cells"]
    lines += ["    " + "".join(f"{column:<10}" for column in range(left, right + 1, 10)).rstrip()]
    lines += [f"{row:3} " + "".join(canvas[row][left : right + 1]).rstrip() for row in range(top, bottom + 1)]
    return "\n".join(lines + [f"{mark} {TITLES[mark]}: {'; '.join(words)}" for mark, words in within.items() if words])
