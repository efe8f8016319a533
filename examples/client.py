#!/usr/bin/env python3
"""A seat at a Nafisowe table, for a terminal.

    client.py HOST PORT SEAT [KEY] [--text] [--log FILE]

It takes the seat, keeps what the server shows by its full and change lines, and draws it: each cell as a letter and a mark,
what is seen now brighter than what is only remembered, messages beneath. Without a terminal, or with --text, it prints the
same as text and reads what is typed from standard input. Without KEY it asks for it. With --log FILE it adds each line of the
server to FILE, as it came. `help` lists what can be typed. It needs the folder `tabletop_client` beside it.

Nothing here is trusted: what a player may learn ends at the bytes that the server sends. What wasn't sent isn't drawn.
"""

from __future__ import annotations

import argparse
import getpass
import io
import os
import sys
from typing import Any, BinaryIO

from tabletop_client.drawing import How, compose, fight_text, legend, map_text, picture, square_of
from tabletop_client.editor import Editor
from tabletop_client.protocol import BadInput, command_of, compact, message_words, refusal_words
from tabletop_client.screen import Connection, Lines, Place, Screen, TextFront
from tabletop_client.seat import Seat
from tabletop_client.view import Grid, Token, Unreadable, View, printable
from tabletop_client.walls import walls_text

# What tests and other programs take from here.
__all__ = [
    "BadInput", "Connection", "Editor", "Grid", "How", "Lines", "Place", "Screen", "Seat", "TextFront", "Token", "Unreadable", "View",
    "command_of", "compact", "compose", "fight_text", "legend", "main", "map_text", "message_words", "picture", "printable", "refusal_words",
    "square_of", "walls_text",
]  # fmt: skip

NO_CURSES = "this system has no curses, so there is no full screen (on Windows `pip install windows-curses` gives it); it goes on as --text"


def words_of(words: list[str]) -> argparse.Namespace:
    parser = argparse.ArgumentParser(description="A seat at a Nafisowe table, for a terminal.")
    parser.add_argument("host")
    parser.add_argument("port", type=int)
    parser.add_argument("seat", type=int, help="its number; 0 is the game master's")
    parser.add_argument("key", nargs="?", help="the seat's key, which is asked for where it isn't given")
    parser.add_argument("--text", action="store_true", help="print text, even on a terminal")
    parser.add_argument("--log", metavar="FILE", help="add each line of the server to this file, as it came")
    return parser.parse_args(words)


def log_at(file: str | None) -> BinaryIO | None:
    """The log, which its owner alone can read. A line is in it as soon as it came."""
    if file is None:
        return None
    return open(file, "ab", buffering=0, opener=lambda path, flags: os.open(path, flags, 0o600))


def curses_here() -> Any:
    """The library for a full screen; none where the system hasn't it."""
    try:
        import curses
    except ImportError:
        print(NO_CURSES, file=sys.stderr)
        return None
    return curses


def sit(front: TextFront | Screen, given: argparse.Namespace, place: Place, log: BinaryIO | None) -> Seat:
    """A session, and those behind breaks, before a front."""
    seat = Seat(given.seat, lambda line: None, front.say, log)
    front.run(seat, place, place.sit(seat))
    return seat


def sit_at_screen(curses: Any, given: argparse.Namespace, place: Place, log: BinaryIO | None) -> Seat:
    seats: list[Seat] = []
    os.environ.setdefault("ESCDELAY", "25")
    curses.wrapper(lambda window: seats.append(sit(Screen(curses, window), given, place, log)))
    return seats[0]


def main(words: list[str]) -> int:
    given = words_of(words)
    if isinstance(sys.stdout, io.TextIOWrapper):
        sys.stdout.reconfigure(errors="backslashreplace")
    key = given.key if given.key is not None else getpass.getpass(f"key of seat {given.seat}: ")
    curses = curses_here() if sys.stdin.isatty() and sys.stdout.isatty() and not given.text else None
    place = Place(given.host, given.port, key)
    try:
        log = log_at(given.log)
    except OSError as fault:
        print(f"no log: {fault}", file=sys.stderr)
        return 1
    try:
        seat = sit_at_screen(curses, given, place, log) if curses else sit(TextFront(), given, place, log)
    except (OSError, OverflowError, BadInput) as fault:
        print(f"no session with {given.host} at port {given.port}: {fault}", file=sys.stderr)
        return 1
    except KeyboardInterrupt:
        print("you left the table without a bye")
        return 1
    print(printable(seat.ended or ""), file=sys.stderr if seat.status else sys.stdout)
    return seat.status


if __name__ == "__main__":
    sys.exit(main(sys.argv[1:]))
