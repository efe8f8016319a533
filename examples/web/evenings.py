"""What the tests of this folder share: the built program, evenings that it plays, and lines at random."""

from __future__ import annotations

import contextlib
import json
import os
import pathlib
import random
import shutil
import socket
import subprocess
import time
import unittest
from typing import Any, Callable, Iterator, TypeVar

HERE = pathlib.Path(__file__).resolve().parent
EXAMPLES = pathlib.Path(os.environ.get("EXAMPLES", HERE.parent))
EVENING = EXAMPLES / "evening" / "evening.json"
PROGRAM = os.environ.get("TABLETOP", str(EXAMPLES.parent / "crates" / "tabletop" / "out" / "tabletop"))
MANY = int(os.environ.get("EVENINGS", "1"))  # evenings at random
KEYS = ("lantern-keeper", "mara-of-the-road", "brok-ironfoot")

needs_program = unittest.skipUnless(os.access(PROGRAM, os.X_OK), "the program isn't built")
needs_node = unittest.skipUnless(shutil.which("node"), "node isn't there")

Line = dict[str, Any]
Found = TypeVar("Found")


def free_port() -> int:
    with socket.create_server(("127.0.0.1", 0)) as door:
        return door.getsockname()[1]


def listens(port: int) -> bool:
    with contextlib.suppress(OSError), socket.create_connection(("127.0.0.1", port)):
        return True
    return False


def wait_for(what: Callable[[], Found], seconds: float = 30.0) -> Found:
    """What it gives, once that is something."""
    end = time.monotonic() + seconds
    while not (found := what()):
        if time.monotonic() > end:
            raise AssertionError(f"it didn't come: {what.__doc__ or what}")
        time.sleep(0.02)
    return found


def script_of(lines: list[tuple[int, Line]]) -> str:
    return "".join(f"{seat} {json.dumps(line)}\n" for seat, line in lines)


def played(script: str, campaign: pathlib.Path = EVENING, *words: str) -> list[str]:
    """What `play` prints of a script."""
    ran = subprocess.run(
        [PROGRAM, "play", str(campaign), *words],
        input=script,
        capture_output=True,
        text=True,
        encoding="utf-8",
    )
    assert ran.returncode == 0, (ran.returncode, ran.stdout[-200:], ran.stderr)
    return ran.stdout.splitlines()


def lines_to(seat: int, printed: list[str]) -> list[str]:
    """The lines that a seat is sent, of those that `play` printed."""
    return [line.partition("\t")[2] for line in printed if line.startswith(f"{seat}\t")]


class AtRandom:
    """Lines of the toll house's three seats, which change whatever is shown."""

    def __init__(self, number: int, many: int) -> None:
        self.chance, self.many = random.Random(number), many
        self.where = {"1:mara": [1, 8], "2:brok": [0, 9]}  # as far as nothing stopped them

    def lines(self) -> Iterator[tuple[int, Line]]:
        """Hellos, the game master's dump, the lines, and the dump again."""
        for seat, key in enumerate(KEYS):
            yield seat, {"do": "hello", "seat": seat, "key": key}
        yield 0, {"do": "dump"}
        for number in range(self.many):
            yield self.line(number)
        yield 0, {"do": "dump"}

    def line(self, number: int) -> tuple[int, Line]:
        pick = self.chance.choice
        kinds = [self.move, self.move, self.of_gm, self.of_gm, self.of_all]
        seat, line = pick(kinds)(number)
        if line["do"] == "place" and line["token"] in self.where:
            self.where[line["token"]] = line["cell"]
        return seat, line

    def made(self) -> str:
        return f"0:t{self.chance.randrange(9)}"

    def token(self) -> str:
        ids = ["1:mara", "2:brok", "0:goblin", "0:well", "0:lamp", "0:captain", self.made()]
        return self.chance.choice(ids)

    def place(self) -> Line:
        return {"map": self.chance.choice(["yard", "yard", "cellar"])}

    def cell(self) -> list[int]:
        return [self.chance.randrange(14), self.chance.randrange(9)]

    def rect(self) -> list[int]:
        return [*self.cell(), self.chance.randint(1, 6), self.chance.randint(1, 3)]

    def move(self, _number: int) -> tuple[int, Line]:
        token = self.chance.choice(list(self.where))
        step = [max(0, at + self.chance.randint(-1, 1)) for at in self.where[token]]
        self.where[token] = step
        return int(token[0]), {"do": "move", "token": token, "path": [step]}

    def of_gm(self, number: int) -> tuple[int, Line]:
        pick = self.chance.choice
        return 0, pick([self.scene_line, self.token_line])(number)

    def scene_line(self, number: int) -> Line:
        pick, place = self.chance.choice, self.place()
        a = [2 * at for at in self.cell()]
        b = pick([[a[0] + 4, a[1]], [a[0], a[1] + 4]])
        wall = {**place, "kind": pick(["vbl", "vbl", "mbl"]), "a": a, "b": b}
        seat = {"seat": pick([1, 2])}
        size = {"w": self.chance.randint(1, 9), "h": self.chance.randint(1, 9)}
        sign = pick([1, 1, 1, -1])
        light = {"name": pick(["torch", f"l{number % 20}"]), "radius": sign * self.chance.randint(1, 9)}
        return pick(
            [
                {"do": "mode", **place, "mode": pick(["off", "day", "night"])},
                {"do": "show", **place, "on": self.chance.random() < 0.7},
                {"do": "trail", **place, "on": self.chance.random() < 0.5},
                {"do": "wall", **wall},
                {"do": "wall", **wall},
                {"do": "unwall", **wall},
                {"do": "terrain", **place, "rect": self.rect(), "kind": pick("abz.")},
                {"do": "expose", **seat, **place, "rect": self.rect()},
                {"do": "hide", **seat, **place, "rect": [0, 0, 14, 9]},
                {"do": "lighttype", **light},
                {"do": "map", "name": f"m{number % 4}", **size},
                {"do": "turn"},
                {"do": "turn"},
                {"do": "endfight"},
            ]
        )

    def token_line(self, number: int) -> Line:
        pick, token = self.chance.choice, {"token": self.token()}
        layer = pick(["token", "token", "hidden", "object", "background"])
        made = {"tag": f"t{number % 9}", **self.place(), "cell": self.cell(), "name": f"T {number}"}
        on = {"on": self.chance.random() < 0.7}
        return pick(
            [
                {"do": "layer", **token, "layer": layer},
                {"do": "visible", **token, **on},
                {"do": "own", **token, "seat": pick([1, 2]), **on},
                {"do": "sight", **token, "sight": pick(["human", "dwarf", "dwarf", None])},
                {"do": "place", **token, **self.place(), "cell": self.cell()},
                {"do": "token", **made, "size": self.chance.randint(1, 4), "layer": layer},
                {"do": "secret", **token, "name": "s", "value": f"secret{number}"},
                {"do": "remove", "token": self.made()},
            ]
        )

    def of_all(self, number: int) -> tuple[int, Line]:
        pick, token = self.chance.choice, {"token": self.token()}
        to = {"to": pick([0, 1, 2, "all", "gm", "gmself", "self"])}
        prop = {"class": pick(["public", "own"]), "name": "p", "value": f"value{number}"}
        made = {"tag": f"o{number % 5}", **self.place(), "cell": self.cell(), "name": "Owl"}
        return pick([0, 1, 2]), pick(
            [
                {"do": "light", **token, "light": pick(["torch", "candle", None])},
                {"do": "setprop", **token, **prop},
                {"do": "look"},
                {"do": "say", "text": f"é{number}", **to},
                {"do": "roll", "dice": "2d6", **to},
                {"do": "macro", "name": pick(["attack", "save"]), "args": ["14", "b", "c"], **to},
                {"do": "make", **made},
                {"do": "init", **token, "value": self.chance.randint(-3, 20)},
                {"do": "init", **token, "value": self.chance.randint(-3, 20)},
                {"do": "uninit", **token},
            ]
        )
