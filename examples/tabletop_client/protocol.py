"""The server's replies, refusals and messages in words, and what is typed as the lines that it stands for."""

from __future__ import annotations

import json
import re
import textwrap
from typing import Any, Callable

from .view import Cell, Object, View, part, printable

LONGEST_LINE, LINES_IN_A_RUN = 4096, 16384
GAME_MASTER = 0


class BadInput(Exception):
    """What was typed stands for no line; the text says why."""


# ---- what the server says, in words
REFUSALS = {  # where the name alone doesn't say it
    "GmOnly": "only the game master may do that",
    "BadField": "a field is missing, of another kind, out of its range or unknown",
    "NotYours": "you have no such token to act on",
    "BadPath": "each step goes to a neighbouring cell, the first from where the token stands",
    "BadKey": "that key doesn't open that seat",
    "SeatTaken": "somebody sits there",
    "Spent": "the seat has had all its lines in this run",
    "BadRadius": "a light reaches 1 to 20 cells, a darkness -20 to -1",
    "NotListed": "the token isn't in the fight",
    "EmptyList": "nobody is in the fight",
}
SILENT = {"look", "macro", "roll", "say"}  # what follows their replies shows that they were done


def plain(name: str) -> str:
    """A name as `NoSuchMap` in words."""
    return re.sub(r"(?<!^)([A-Z])", r" \1", printable(name)).lower()


def refusal_words(line: Object) -> str:
    name = part(line, "refused", str)
    words = [f"refused ({printable(name)}): {REFUSALS.get(name) or plain(name)}"]
    words += [plain(part(line, "kind", str))] if "kind" in line else []
    words += [f"{title} {printable(str(line[key]))}" for key, title in (("field", "field"), ("at", "at byte")) if key in line]
    return ", ".join(words)


def message_words(line: Object) -> str:
    sender = "GM" if part(line, "from", int) == GAME_MASTER else f"seat {line['from']}"
    to = {"all": "", "gm": " to the GM", "self": " to self", "gmself": " to the GM and self"}
    return f"{sender}{to.get(line['to'], ' to seat %s' % line['to'])}: {part(line, 'text', str)}"


# ---- what is typed
FORMS = {  # each command with its fields; one in brackets may be missing, one with dots takes all the rest
    "bye": "",
    "look": "",
    "dump": "",
    "say": "[to] text..",
    "roll": "[to] dice..",
    "macro": "[to] name args..",
    "setmacro": "name text..",
    "move": "[token] path..",
    "light": "token light",
    "setprop": "token class name value..",
    "make": "tag map cell name..",
    "remove": "token",
    "init": "token value",
    "uninit": "token",
    "map": "name w h",
    "mode": "map mode",
    "show": "map on",
    "trail": "map on",
    "terrain": "map rect kind",
    "wall": "map kind a b",
    "unwall": "map kind a b",
    "lighttype": "name radius",
    "sighttype": "name range night mult",
    "token": "tag map cell [size] [layer] name..",
    "own": "token seat on",
    "layer": "token layer",
    "visible": "token on",
    "sight": "token sight",
    "place": "token map cell",
    "secret": "token name value..",
    "expose": "seat map rect",
    "hide": "seat map rect",
    "turn": "",
    "endfight": "",
}
PARAGRAPHS = (
    "While nothing is typed, arrow keys, the numeric pad and digits move the chosen token. TAB chooses the next token of the map, "
    "Shift-TAB shows the next map. A line may begin with '/', and one that begins with '{' goes to the server as it is.",
    "In a typed line: cursor keys, Ctrl-A and Ctrl-E to its ends, Ctrl-U, Ctrl-K and Ctrl-W cut, Ctrl-P and Ctrl-N (or up and down) "
    "give lines that were typed before. Ctrl-B and Ctrl-F turn the pages of what was said, Shift with up and down its lines.",
    "; ".join(f"{name} {fields}".rstrip() for name, fields in FORMS.items()),
    "A token is an id, or '.' for the chosen one. A cell, a and b are X,Y and a rect is X,Y,W,H; on is on or off; light and sight are a "
    "name or -; a radius below 0 makes a darkness; [to] is @self, @gm, @gmself, @all or @SEAT; the others in [] stand as size=2. A path is cells, 3,4 4,5, or steps by the "
    "digits of the numeric pad, 669. Args are words, or texts in double quotes. '@2 TEXT' says TEXT to seat 2, '!NAME args' runs a macro, "
    "dropmacro NAME removes it.",
    "A fight: 'init . 17' puts a token in its list, the greatest number first, and uninit takes it out. The GM's turn passes the turn on, and "
    "endfight ends the fight.",
    "Without the server: choose ID (or a map, or -), tokens, fight, types, draw; again sits down once more after a break. The GM's: save "
    "FILE, and walls [map] [rect], which draws the walls.",
)
HELP = "\n".join(textwrap.fill(paragraph, 78) for paragraph in PARAGRAPHS)
PAD = {"7": (-1, -1), "8": (0, -1), "9": (1, -1), "4": (-1, 0), "6": (1, 0), "1": (-1, 1), "2": (0, 1), "3": (1, 1)}


def wholes(word: str, many: int) -> list[int]:
    """So many numbers between commas."""
    numbers = [int(number) for number in word.split(",")]
    if len(numbers) != many:
        raise ValueError(word)
    return numbers


VALUES: dict[str, Callable[[str], Any]] = {  # the fields that aren't a text, with the dots of those that have some
    **dict.fromkeys(("w", "h", "radius", "range", "night", "mult", "seat", "size", "value"), int),
    **dict.fromkeys(("cell", "a", "b"), lambda word: wholes(word, 2)),
    **dict.fromkeys(("light", "sight"), lambda word: None if word == "-" else word),
    "rect": lambda word: wholes(word, 4),
    "on": lambda word: {"on": True, "off": False}[word],
    "args..": lambda text: [quoted or bare for quoted, bare in re.findall(r'"([^"]*)"|(\S+)', text)],
}


def split_word(text: str) -> tuple[str, str]:
    word, _, rest = text.lstrip(" ").partition(" ")
    return word, rest


def address_of(word: str) -> int | str | None:
    """The address of a word as `@gm` or `@2`; none where it is another word."""
    found = re.fullmatch(r"@(self|gmself|gm|all|[0-9]+)", word)
    return None if not found else int(found[1]) if found[1].isdigit() else found[1]


def steps_of(words: list[str]) -> list[str]:
    """The steps of a path: each cell, and each digit of the numeric pad."""
    steps: list[str] = []
    for word in words:
        steps += [word] if "," in word else list(word)
    return steps


class Typed:
    """A typed line as it is read: the fields so far, and the text behind them."""

    def __init__(self, text: str, view: View, chosen: str | None) -> None:
        self.text, self.view, self.chosen = text, view, chosen
        self.fields: Object = {}

    def command(self, name: str) -> Object:
        """The command of that name with the fields of its form."""
        try:
            for field_name in FORMS[name].split():
                self.take(field_name)
            if self.text.strip():
                raise ValueError(self.text)
        except (ValueError, KeyError) as fault:
            raise BadInput(f"usage: {name} {FORMS[name]}".rstrip() + " (type help)") from fault
        return {"do": name, **self.fields}

    def take(self, field_name: str) -> None:
        """Reads a field from the front of the text."""
        key, (word, rest) = field_name.strip("[]."), split_word(self.text)
        if field_name == "[token]" and not (":" in word or word == "."):
            word, rest = ".", self.text
        if field_name == "path..":
            self.fields[key], self.text = self.path(self.text.split()), ""
        elif field_name.endswith(".."):
            self.fields[key], self.text = VALUES.get(field_name, str)(self.text), ""
        elif field_name.startswith("[") and key != "token":
            self.take_option(key, word, rest)
        elif not word:
            raise ValueError(key)
        else:
            self.fields[key], self.text = self.token(word) if key == "token" else VALUES.get(key, str)(word), rest

    def take_option(self, key: str, word: str, rest: str) -> None:
        if key == "to" and address_of(word) is not None:
            self.fields[key], self.text = address_of(word), rest
        elif word.startswith(key + "="):
            self.fields[key], self.text = VALUES.get(key, str)(word[len(key) + 1 :]), rest

    def token(self, word: str) -> str:
        if word != ".":
            return word
        if self.chosen is None:
            raise BadInput("no token is chosen")
        return self.chosen

    def path(self, words: list[str]) -> list[Cell]:
        """The cells of a path, each a cell `3,4` or a step by a digit of the numeric pad from where the token stands."""
        token, path = self.view.tokens.get(self.fields["token"]), []
        here = token.cell if token else None
        for step in steps_of(words):
            if "," in step:
                x, y = wholes(step, 2)
            elif here is None:
                raise BadInput("you aren't shown that token, so give cells: move ID X,Y ..")
            else:
                x, y = here[0] + PAD[step][0], here[1] + PAD[step][1]
            here = (x, y)
            path.append(here)
        return path


def command_of(text: str, view: View, chosen: str | None) -> Object:
    """The command that a typed line in short form stands for."""
    if address_of(split_word(text)[0]) is not None:
        text = "say " + text
    elif text.startswith("!"):
        text = "macro " + text[1:]
    name, rest = split_word(text[1:] if text.startswith("/") else text)
    if name == "dropmacro":
        return {"do": "setmacro", "name": rest.strip(), "text": None}
    if name not in FORMS:
        raise BadInput(f"no such command: {name}; type help")
    return Typed(rest, view, chosen).command(name)


def compact(value: Object) -> str:
    """A value as the server writes it: on one line, keys in order."""
    return json.dumps(value, ensure_ascii=False, separators=(",", ":"), sort_keys=True)
