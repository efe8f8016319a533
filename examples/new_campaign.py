#!/usr/bin/env python3
"""A campaign from maps drawn as text, with keys that nobody guesses and a seed for each seat.

    new_campaign.py tower.json --players Mara,Brok --map tower.txt --map yard.txt

A map file has rows of cells, then, behind an empty line, what stands on them:

    ############        #       rock: walls that block sight and movement stand between it and other cells
    #ssssss#gggg        a-z .   ground by its letter
    #sGsssss+g1g        +       a shut door, with rock on two opposite sides
    #ssssss#gg2g        1-9     where that player begins, on the ground of the nearest cell
    ############        A-Z     a token, as told below

    G Goblin hp=7 hit=4         hidden at first; numbers and words are secret properties
    W Well size=2 layer=object light=candle

The map's name is the file's. Players are shown the first map, and no map has a trail. Lights are candle, torch,
lantern and murk, a darkness. It needs Python 3.9 or later, and nothing else.
"""

from __future__ import annotations

import argparse
import json
import os
import pathlib
import re
import secrets
import sys
from dataclasses import dataclass, field
from typing import Any, Iterator

LIGHTS = {"candle": 2, "torch": 4, "lantern": 6, "murk": -3}
SIGHTS = {"human": [30, 0, 2], "keen": [40, 0, 3], "dark": [30, 8, 2]}
LAYERS = ("token", "hidden", "object", "background")
ROCK, DOOR, ROCK_LETTER = "#", "+", "x"
GROUND = re.compile(r"[a-z.]")
OWN_FIELDS = ("size", "layer", "light")  # the others are properties
LONGEST_SIDE, MOST_MAPS, MOST_WALLS, LONGEST_NAME, LONGEST_VALUE, MOST_PLAYERS = 96, 8, 2048, 40, 200, 32

Rows = list[str]
Edge = tuple[int, int, bool]  # the upper side of the cell x, y, or with True its left side
Wall = list[int]  # from point to point, in half cells


class BadMap(Exception):
    """A map file that isn't one; the text says why."""


def tag_of(name: str, used: list[str]) -> str:
    """A tag out of a name, which isn't used yet."""
    tag = (re.sub(r"[^a-z0-9]+", "_", name.lower()).strip("_") or "token")[:20]
    number, free = 1, tag
    while free in used:
        number += 1
        free = f"{tag}_{number}"
    return free


# ---- walls
def sides(rows: Rows) -> Iterator[tuple[Edge, str, str]]:
    """Each side between two cells, with what is drawn before it and behind it."""
    for y, row in enumerate(rows):
        for x, char in enumerate(row):
            if y:
                yield (x, y, False), rows[y - 1][x], char
            if x:
                yield (x, y, True), row[x - 1], char


def doors_of(rows: Rows) -> set[Edge]:
    """A door stands on the upper or left side of its cell, across the way between the two rocks."""
    doors = set()
    for y, row in enumerate(rows):
        for x, char in enumerate(row):
            if char != DOOR:
                continue
            if row[max(0, x - 1) : x + 2].count(ROCK) == 2:
                doors.add((x, y, False))
            elif [other[x] for other in rows[max(0, y - 1) : y + 2]].count(ROCK) == 2:
                doors.add((x, y, True))
            else:
                raise BadMap(f"the door in row {y}, column {x} hasn't rock on two opposite sides")
    return doors


def wall_of(edges: list[Edge]) -> Wall:
    """The wall along sides that follow each other."""
    (x, y, upright), (last_x, last_y, _) = edges[0], edges[-1]
    return [2 * x, 2 * y, *((2 * x, 2 * last_y + 2) if upright else (2 * last_x + 2, 2 * y))]


def walls_of(rows: Rows) -> list[Wall]:
    """The walls, each as long as it goes, and each door a wall of its own, so that it can be taken away."""
    doors = doors_of(rows)
    rock = {edge for edge, one, other in sides(rows) if (one == ROCK) != (other == ROCK)} - doors
    walls = []
    for edge in sorted(rock):
        x, y, upright = edge
        if (x, y - 1, True) in rock if upright else (x - 1, y, False) in rock:
            continue  # it isn't the wall's first
        run = [edge]
        while (following := (x, y + len(run), True) if upright else (x + len(run), y, False)) in rock:
            run.append(following)
        walls.append(wall_of(run))
    return walls + [wall_of([door]) for door in sorted(doors)]


# ---- ground and tokens
def ground_of(rows: Rows) -> Rows:
    """The letters of ground, and that of rock."""
    return ["".join(letter_at(rows, x, y) for x in range(len(row))) for y, row in enumerate(rows)]


def letter_at(rows: Rows, x: int, y: int) -> str:
    """A cell on which something stands has the letter of the nearest ground in its row or column."""
    char, column = rows[y][x], "".join(row[x] for row in rows)
    if char == ROCK:
        return ROCK_LETTER
    if GROUND.match(char):
        return char
    ways = (rows[y][:x][::-1], rows[y][x + 1 :], column[:y][::-1], column[y + 1 :])
    found = [ground for way in ways if (ground := GROUND.search(way))]
    return min(found, key=lambda ground: ground.start())[0] if found else "."


@dataclass
class Kind:
    """What a capital letter of a map stands for."""

    name: str
    layer: str = "hidden"
    light: str | None = None
    size: int = 1
    secret: list[list[str]] = field(default_factory=list)

    @classmethod
    def read(cls, line: str) -> tuple[str, Kind]:
        """The letter and the kind of a line like `G Goblin hp=7`."""
        found = re.fullmatch(r"([A-Z]) +([^=]+?)((?: +\w+=\S+)*) *", line)
        if not found or len(found[2].encode()) > LONGEST_NAME:
            raise BadMap(f"{line!r} isn't like 'G Goblin hp=7', with a name of at most {LONGEST_NAME} bytes")
        given = dict(word.split("=", 1) for word in found[3].split())
        layer, light, size = given.get("layer", "hidden"), given.get("light"), given.get("size", "1")
        if layer not in LAYERS or light not in (None, *LIGHTS) or not re.fullmatch("[1-4]", size):
            raise BadMap(
                f"{line!r}: size is 1 to 4, layer one of {', '.join(LAYERS)}, light of {', '.join(LIGHTS)}"
            )
        secret = [[key, value] for key, value in given.items() if key not in OWN_FIELDS]
        for key, value in secret:
            if not re.fullmatch(r"[a-z0-9_]{1,24}", key) or len(value.encode()) > LONGEST_VALUE:
                raise BadMap(
                    f"{line!r}: a property is 1 to 24 of a-z, 0-9 and _, and at most {LONGEST_VALUE} bytes"
                )
        return found[1], cls(found[2], layer, light, int(size), secret)


class Campaign:
    """Maps and tokens so far."""

    def __init__(self, players: list[str]) -> None:
        if not 1 <= len(players) <= MOST_PLAYERS or any(
            len(name.encode()) > LONGEST_NAME for name in players
        ):
            raise BadMap(f"1 to {MOST_PLAYERS} players, with names of at most {LONGEST_NAME} bytes")
        self.players = players
        self.maps: list[dict[str, Any]] = []
        self.tokens: list[dict[str, Any]] = []
        self.tags: list[list[str]] = [[] for _ in range(len(players) + 1)]  # that each seat has used

    def put(self, seat: int, kind: Kind, name: str, cell: list[int], sight: str | None) -> None:
        """A token on the map of that name, made by that seat."""
        tag = tag_of(kind.name, self.tags[seat])
        self.tags[seat].append(tag)
        token = {"cell": cell, "id": f"{seat}:{tag}", "layer": kind.layer, "light": kind.light, "map": name}
        token |= {"name": kind.name, "owners": [seat] if seat else [], "secret": kind.secret, "sight": sight}
        self.tokens.append({**token, "own": [], "props": [], "size": kind.size, "visible": True})

    def add(self, name: str, text: str) -> None:
        """The map of a file's text."""
        drawn, _, told = text.replace("\r", "").strip("\n").partition("\n\n")
        rows = [row.rstrip() for row in drawn.split("\n")]
        width, height = len(rows[0]), len(rows)
        if not (1 <= width <= LONGEST_SIDE and 1 <= height <= LONGEST_SIDE) or {len(row) for row in rows} != {
            width
        }:
            raise BadMap(f"1 to {LONGEST_SIDE} rows of the same length, 1 to {LONGEST_SIDE} cells")
        if len(self.maps) == MOST_MAPS:
            raise BadMap(f"a campaign has at most {MOST_MAPS} maps")
        self.put_tokens(name, rows, dict(Kind.read(line) for line in told.split("\n") if line.strip()))
        walls = walls_of(rows)
        if len(walls) > MOST_WALLS:
            raise BadMap(f"more than {MOST_WALLS} walls")
        shape = {"h": height, "mode": "day", "name": name, "shown": not self.maps, "trail": False, "w": width}
        self.maps.append({**shape, "mbl": walls, "rows": ground_of(rows), "vbl": walls})

    def put_tokens(self, name: str, rows: Rows, kinds: dict[str, Kind]) -> None:
        for y, row in enumerate(rows):
            for x, char in enumerate(row):
                if char.isdigit() and 1 <= int(char) <= len(self.players):
                    self.put(int(char), Kind(self.players[int(char) - 1], "token"), name, [x, y], "human")
                elif char in kinds:
                    if x + kinds[char].size > len(row) or y + kinds[char].size > len(rows):
                        raise BadMap(f"{kinds[char].name} in row {y}, column {x} isn't whole on the map")
                    self.put(0, kinds[char], name, [x, y], None)
                elif not re.fullmatch(r"[a-z.#+]", char):
                    raise BadMap(f"what is {char!r} in row {y}, column {x}?")

    def without_token(self) -> list[str]:
        """The players that begin nowhere."""
        return [name for name, tags in zip(self.players, self.tags[1:]) if not tags]

    def text(self, keys: list[str]) -> str:
        """The campaign's text, with a new seed for each seat."""
        seats = [
            {"drawn": 0, "fog": {}, "key": key, "macros": {}, "seed": secrets.token_hex(32), "tags": tags}
            for key, tags in zip(keys, self.tags)
        ]
        campaign = {"format": 2, "lights": LIGHTS, "maps": self.maps, "seats": seats, "sights": SIGHTS}
        campaign["tokens"] = self.tokens
        return json.dumps(campaign, ensure_ascii=False, separators=(",", ":"), sort_keys=True)


def campaign_of(players: list[str], files: list[pathlib.Path]) -> Campaign:
    campaign = Campaign(players)
    for file in files:
        try:
            campaign.add(tag_of(file.stem, [it["name"] for it in campaign.maps]), file.read_text("utf-8"))
        except (BadMap, UnicodeDecodeError) as fault:
            raise BadMap(f"{file}: {fault}") from fault
    return campaign


def write_new(file: pathlib.Path, text: str) -> None:
    """Writes a file that isn't there yet, and that nobody else may read."""
    with open(os.open(file, os.O_WRONLY | os.O_CREAT | os.O_EXCL, 0o600), "w", encoding="utf-8") as out:
        out.write(text + "\n")


def main(words: list[str]) -> int:
    form = argparse.RawDescriptionHelpFormatter
    parser = argparse.ArgumentParser(description=__doc__, formatter_class=form)
    parser.add_argument(
        "out", type=pathlib.Path, help="the file to be written; one that is there is left alone"
    )
    parser.add_argument("--players", required=True, help="their names, with commas between")
    parser.add_argument("--map", action="append", type=pathlib.Path, required=True, help="a map file")
    given = parser.parse_args(words)
    players = [name.strip() for name in given.players.split(",") if name.strip()]
    keys = [secrets.token_urlsafe(12) for _ in range(len(players) + 1)]
    try:
        campaign = campaign_of(players, given.map)
        write_new(given.out, campaign.text(keys))
    except (BadMap, OSError) as fault:
        print(f"no campaign: {fault}", file=sys.stderr)
        return 1
    print(f"{given.out} has all keys and dice to come: keep it to yourself. A key is for one person alone:")
    for seat, (name, key) in enumerate(zip(["the game master", *players], keys)):
        print(f"  seat {seat}, {name}: {key}")
    for name in campaign.without_token():
        print(f"{name} begins nowhere: no map has the digit {players.index(name) + 1}")
    return 0


if __name__ == "__main__":
    sys.exit(main(sys.argv[1:]))
