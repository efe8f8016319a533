"""What a seat is shown: maps, tokens and types, as the server's full and change lines tell them."""

from __future__ import annotations

import re
from dataclasses import dataclass, field
from typing import Any, Iterable

Cell = tuple[int, int]
Object = dict[str, Any]
Props = list[list[str]]

LAYERS = ("background", "object", "hidden", "token")  # as drawn, the last on top


class Unreadable(Exception):
    """A line of the server that is none of the protocol, or doesn't fit what was shown before."""


def part(line: Object, key: str, kind: type) -> Any:
    """The value at a key, of the kind that the protocol gives it."""
    value = line[key]
    if type(value) is not kind:
        raise Unreadable(f"'{key}' isn't of its kind")
    return value


def printable(text: str) -> str:
    """The text without characters that would steer a terminal."""
    return "".join(char if char.isprintable() else char.encode("unicode_escape").decode() for char in text)


def cells_of(runs: Iterable[list[int]]) -> set[Cell]:
    """The cells of runs [y, x0, x1]."""
    return {(x, y) for y, first, last in runs for x in range(first, last + 1)}


def letters_of(runs: Iterable[list[Any]]) -> dict[Cell, str]:
    """The letters of runs [y, x0, LETTERS], by cell."""
    return {(first + place, y): letter for y, first, letters in runs for place, letter in enumerate(letters)}


@dataclass
class Grid:
    """A map: the cells that are seen now, and the letters of those that are exposed. `shown` is sent to the GM alone."""

    name: str
    width: int
    height: int
    mode: str
    shown: bool | None
    seen: set[Cell]
    letters: dict[Cell, str]

    @classmethod
    def read(cls, line: Object) -> Grid:
        width, height = part(line, "w", int), part(line, "h", int)
        grid = cls(part(line, "name", str), width, height, part(line, "mode", str), line.get("shown"), set(), {})
        grid.apply({"lit": line["seen"], "ground": line["ground"]})
        return grid

    def apply(self, change: Object) -> None:
        """Takes in the part of a change line that speaks of this map."""
        self.mode = change.get("mode", self.mode)
        self.shown = change.get("shown", self.shown)
        self.seen |= cells_of(change.get("lit", []))
        self.seen -= cells_of(change.get("dark", []))
        letters = letters_of(change.get("ground", []))
        if not all(self.has_cell(cell) and (letter == "." or "a" <= letter <= "z") for cell, letter in letters.items()):
            raise Unreadable("a letter isn't one, or isn't on its map")
        self.letters.update(letters)
        for cell in cells_of(change.get("hidden", [])):
            del self.letters[cell]

    def has_cell(self, cell: Cell) -> bool:
        return 0 <= cell[0] < self.width and 0 <= cell[1] < self.height

    def has_square(self, token: Token) -> bool:
        x, y = token.cell
        return 0 <= x <= self.width - token.size and 0 <= y <= self.height - token.size

    def title(self) -> str:
        return f"{self.name}, {self.width} by {self.height}, {self.mode}" + (", not shown" if self.shown is False else "")


@dataclass
class Token:
    """A token. Of those that the seat may act on `own`, `sight` and `light` are sent too; the last three to the GM alone."""

    id: str
    name: str
    map: str
    cell: Cell
    size: int
    layer: str
    props: Props
    own: Props | None = None
    sight: str | None = None
    light: str | None = None
    owners: list[int] | None = None
    secret: Props | None = None
    visible: bool | None = None

    @classmethod
    def read(cls, line: Object) -> Token:
        """The token of a line, with all that is needed to draw it."""
        for key, kind in (("id", str), ("name", str), ("map", str), ("layer", str), ("size", int), ("props", list)):
            part(line, key, kind)
        token = cls(**{key: line[key] for key in cls.__dataclass_fields__ if key in line})
        x, y = token.cell
        token.cell = (int(x), int(y))
        if token.layer not in LAYERS or not re.fullmatch("[0-9]+:.+", token.id):
            raise Unreadable("a token's layer or id is none")
        for name, value in [*token.props, *(token.own or []), *(token.secret or [])]:
            if type(name) is not str or type(value) is not str:
                raise Unreadable("a property isn't a pair of texts")
        return token

    def order(self) -> tuple[int, str]:
        maker, tag = self.id.split(":", 1)
        return int(maker), tag

    def words(self) -> str:
        """The token in words: all that was sent of it."""
        words = [f"{printable(self.name)} {printable(self.id)} at {self.cell[0]},{self.cell[1]}"]
        words += [f"size {self.size}"] if self.size > 1 else []
        words += [f"layer {self.layer}"] if self.layer != "token" else []
        words += ["not visible"] if self.visible is False else []
        words += [f"owner {owner}" for owner in self.owners or []]
        words += [f"{kind} {name}" for kind, name in (("sight", self.sight), ("light", self.light)) if name]
        for title, props in (("", self.props), ("own: ", self.own), ("secret: ", self.secret)):
            words += [title + ", ".join(f"{name}={printable(value)}" for name, value in props)] if props else []
        return "; ".join(words)


@dataclass
class Fight:
    """The seat's part of a fight: entries of an id and a value, in order, the round, and whose turn it is as far as that is shown."""

    entries: list[tuple[str, int]]
    round: int
    turn: str | None

    @classmethod
    def read(cls, line: Object) -> Fight:
        entries, turn = [(token_id, value) for token_id, value in part(line, "list", list)], line["turn"]
        if not all(type(token_id) is str and type(value) is int for token_id, value in entries):
            raise Unreadable("an entry of the fight isn't an id and a number")
        if turn is not None and turn not in dict(entries):
            raise Unreadable("the turn is that of no entry")
        return cls(entries, part(line, "round", int), turn)


@dataclass
class View:
    """All that a seat is shown."""

    maps: dict[str, Grid] = field(default_factory=dict)
    tokens: dict[str, Token] = field(default_factory=dict)
    lights: dict[str, int] = field(default_factory=dict)
    sights: dict[str, list[int]] = field(default_factory=dict)
    fight: Fight | None = None

    @classmethod
    def read(cls, line: Object) -> View:
        view = cls()
        view.apply({key: line[key] for key in ("lights", "maps", "sights", "tokens")} | {"fight": line.get("fight")})
        return view

    def apply(self, change: Object) -> None:
        """Takes in a change line. What it changes or takes away has to be there."""
        for name in change.get("unmapped", []):
            del self.maps[name]
        for token_id in change.get("gone", []):
            del self.tokens[token_id]
        for parts in change.get("changed", []):
            self.maps[parts["name"]].apply(parts)
        self.maps.update((grid.name, grid) for grid in map(Grid.read, change.get("maps", [])))
        for token in map(Token.read, change.get("tokens", [])):
            if not self.maps[token.map].has_square(token):
                raise Unreadable("a token isn't on its map")
            self.tokens[token.id] = token
        self.lights.update(change.get("lights", {}))
        self.sights.update(change.get("sights", {}))
        if "fight" in change:
            self.fight = None if change["fight"] is None else Fight.read(change["fight"])
        if self.fight and not all(token_id in self.tokens for token_id, _ in self.fight.entries):
            raise Unreadable("an entry of the fight is that of no token")

    def on_map(self, name: str | None) -> list[Token]:
        return sorted((token for token in self.tokens.values() if token.map == name), key=Token.order)
