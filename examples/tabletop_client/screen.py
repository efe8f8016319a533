"""The connection, and what stands before the player: text as it comes, or the whole screen of a terminal."""

from __future__ import annotations

import contextlib
import os
import queue
import select
import socket
import sys
import threading
import time
from dataclasses import dataclass
from typing import Any, Callable

from .drawing import How, compose, fight_text, fitting, folded, map_text, pane_height, typed_window
from .editor import Editor
from .protocol import PAD
from .seat import Seat
from .view import Cell, printable

MOMENT, IDLE = 0.05, 0.25  # seconds
PATIENCE = 20.0  # seconds until a connection is given up
MOST_NOTES = 2000
FIGHT = "the fight"  # among the names of what is printed: no map is called so


# ---- the connection
class Lines:
    """Bytes that come in pieces, as lines."""

    rest = b""

    def add(self, piece: bytes) -> list[bytes]:
        *lines, self.rest = (self.rest + piece).split(b"\n")
        return lines


class Connection:
    """Lines to and from the server."""

    def __init__(self, host: str, port: int) -> None:
        self.socket = socket.create_connection((host, port), timeout=PATIENCE)
        self.socket.settimeout(None)
        self.lines = Lines()
        self.fault: str | None = None

    def send(self, line: bytes) -> None:
        with contextlib.suppress(OSError):  # the end of the connection is met where it is read
            self.socket.sendall(line + b"\n")

    def read(self) -> bytes:
        """The next piece that comes; nothing at the end, whatever it came by."""
        try:
            return self.socket.recv(65536)
        except OSError as fault:
            self.fault = f"the connection broke: {fault.strerror or fault}"
            return b""

    def give(self, piece: bytes, seat: Seat) -> None:
        """Gives the seat the lines of a piece, or tells it that the connection is at its end."""
        for line in self.lines.add(piece):
            if seat.ended is None:
                seat.take(line)
        if not piece:
            seat.lose(self.fault or "the server closed the connection" + (" within a line" if self.lines.rest else ""))

    def receive(self, seat: Seat) -> None:
        """Waits for the next piece and gives it to the seat."""
        self.give(self.read(), seat)


@dataclass
class Place:
    """Where a seat is to be had, and its key."""

    host: str
    port: int
    key: str

    def sit(self, seat: Seat) -> Connection:
        """Sits down: a new connection, and the hello on it."""
        connection = Connection(self.host, self.port)
        seat.sit_down(connection.send, self.key)
        return connection

    def sit_again(self, seat: Seat, lost: Connection) -> Connection:
        """Sits down once more behind a connection that was lost; where there is none to be had, that one stays."""
        lost.socket.close()
        try:
            return self.sit(seat)
        except OSError as fault:
            seat.wants_again = False
            seat.say(f"no connection: {fault.strerror or fault}")
            return lost


# ---- without a terminal
def typed_piece() -> bytes:
    """The next piece of what is typed. It is read past the buffer, whose lock a thread that waits would hold when the program ends."""
    source = getattr(sys.stdin.buffer, "raw", sys.stdin.buffer)
    return bytes(source.read(65536) or b"")


class TextFront:
    """Prints the fight and each map whose picture has changed, and reads what is typed from standard input, whose end is a bye. What is typed and
    what the server sends are waited for by a thread each, since not every system can wait for both at once."""

    def __init__(self) -> None:
        self.lines = Lines()
        self.printed: dict[str, list[str]] = {}
        self.events: queue.Queue[tuple[Connection | None, bytes]] = queue.Queue()

    def say(self, words: str) -> None:
        print("\n".join(printable(line) for line in words.split("\n")), flush=True)

    def show(self, seat: Seat) -> None:
        pictures = {name: map_text(seat.view, name) for name in sorted(seat.view.maps)}
        if seat.view.fight:
            head, *rows = fight_text(seat.view)
            pictures[FIGHT] = [f"== {head}", *rows]
        for name in sorted(set(self.printed) - set(pictures)):
            print(f"== {name} is shown no more")
        for name, lines in pictures.items():
            if seat.redraw or self.printed.get(name) != lines:
                print("\n".join(lines))
        sys.stdout.flush()
        self.printed, seat.redraw = pictures, False

    def listen(self, source: Connection | None, read: Callable[[], bytes]) -> None:
        """Puts among the events what comes from a source, up to its end; it has none for what is typed."""

        def wait() -> None:
            piece = read()
            while piece:
                self.events.put((source, piece))
                piece = read()
            self.events.put((source, b""))

        threading.Thread(target=wait, daemon=True).start()

    def type(self, piece: bytes, seat: Seat) -> None:
        seat.typed.extend(self.lines.add(piece))
        if not piece:
            seat.typed.extend([self.lines.rest, b"bye"])

    def run(self, seat: Seat, place: Place, connection: Connection) -> None:
        """Once nothing more comes for a moment, shows what has changed and takes the next typed line."""
        self.listen(connection, connection.read)
        self.listen(None, typed_piece)
        news = True
        while seat.ended is None:
            try:
                source, piece = self.events.get(timeout=MOMENT if news or seat.typed else IDLE)
            except queue.Empty:
                if news or seat.typed:
                    self.show(seat)
                    seat.advance()
                    news = seat.redraw
            else:
                news = True
                if source is None:
                    self.type(piece, seat)
                elif source is connection:
                    connection.give(piece, seat)
            if seat.wants_again:
                connection, lost = place.sit_again(seat, connection), connection
                if connection is not lost:
                    self.listen(connection, connection.read)
        self.show(seat)


# ---- in a terminal
class Screen:
    """The terminal: draws what `compose` gives, and turns keys into steps, choices and typed lines."""

    STEPS = {"UP": "8", "DOWN": "2", "LEFT": "4", "RIGHT": "6", "HOME": "7", "PPAGE": "9", "END": "1", "NPAGE": "3"}
    # The keys of the numeric pad, as terminals' entries name them; and what follows an escape where an entry hasn't them.
    PAD_KEYS = {"KEY_A1": "7", "ka2": "8", "KEY_A3": "9", "kb1": "4", "KEY_B2": "5", "kb3": "6", "KEY_C1": "1", "kc2": "2", "KEY_C3": "3",
                "kpZRO": "0"}  # fmt: skip
    ESCAPED_PAD = dict(zip("pqrstuvwxy", "0123456789"))

    def __init__(self, curses: Any, window: Any) -> None:
        self.curses, self.window = curses, window
        self.editor = Editor()
        self.notes: list[str] = []
        self.back = 0  # how many lines before the last ones the notes are shown
        self.pan: Cell = (0, 0)
        with contextlib.suppress(curses.error):  # a terminal without colours
            curses.use_default_colors()
        window.keypad(True)
        window.nodelay(True)
        self.can_dim = bool(curses.tigetstr("dim")) if hasattr(curses, "tigetstr") else False
        bold, chosen = curses.A_BOLD, curses.A_BOLD | curses.A_REVERSE
        self.looks = {How.REMEMBERED: curses.A_DIM, How.TITLE: bold, How.TOKEN: bold, How.CHOSEN: chosen}
        self.steps = {getattr(curses, "KEY_" + name): digit for name, digit in self.STEPS.items()}
        self.edits = self.edits_of(curses)

    def edits_of(self, curses: Any) -> dict[Any, Callable[[], None]]:
        """What each key does in the typed line and to the notes, whether something is typed or not."""
        editor, page = self.editor, 10
        return {
            "\x01": editor.to_begin, "\x05": editor.to_end, "\x10": editor.previous, "\x0e": editor.next,
            "\x15": editor.cut_before, "\x0b": editor.cut_behind, "\x17": editor.cut_word, "\x04": editor.delete,
            "\b": editor.rub_out, "\x7f": editor.rub_out, curses.KEY_BACKSPACE: editor.rub_out, curses.KEY_DC: editor.delete,
            "\x02": lambda: self.scroll(page), "\x06": lambda: self.scroll(-page),
            curses.KEY_SR: lambda: self.scroll(1), curses.KEY_SF: lambda: self.scroll(-1),
        }  # fmt: skip

    def in_line(self, key: Any) -> Callable[[], None] | None:
        """What a cursor key does where something is typed."""
        curses, editor = self.curses, self.editor
        keys = {curses.KEY_LEFT: editor.left, curses.KEY_RIGHT: editor.right, curses.KEY_UP: editor.previous, curses.KEY_DOWN: editor.next,
                curses.KEY_HOME: editor.to_begin, curses.KEY_END: editor.to_end}  # fmt: skip
        return keys.get(key) if editor.text else None

    def say(self, words: str) -> None:
        """Shows words beneath the others. What is read behind them stays where it is, and a long note is shown from its first line."""
        height, width = self.window.getmaxyx()
        self.notes.append(words)
        del self.notes[:-MOST_NOTES]
        lines = len(folded(words, width - 1))
        self.back = self.back + lines if self.back else max(0, lines - pane_height(self.notes, (height, width)))

    def scroll(self, lines: int) -> None:
        height, width = self.window.getmaxyx()
        every = sum(len(folded(note, width - 1)) for note in self.notes)
        self.back = max(0, min(self.back + lines, every - pane_height(self.notes, (height, width))))

    def draw(self, seat: Seat) -> None:
        self.window.erase()
        height, width = self.window.getmaxyx()
        text, cursor = self.editor.text, self.editor.cursor
        for row, column, words, how in compose(seat, self.notes, text, (height, width), self.pan, self.back, cursor):
            words = words[:1] if how is How.REMEMBERED and self.can_dim else words[: fitting(words, width - 1 - column)]
            with contextlib.suppress(self.curses.error):  # outside of a small window
                self.window.addstr(row, column, words, self.looks.get(how, self.curses.A_NORMAL))
        with contextlib.suppress(self.curses.error):
            self.window.move(height - 1, typed_window(text, cursor, width)[1])
        self.window.refresh()

    def key(self) -> Any:
        """The next key; none where none waits."""
        with contextlib.suppress(self.curses.error):
            return self.window.get_wch()

    def plain_key(self, key: Any) -> Any:
        """The key, and a key of the numeric pad as its digit."""
        if key == "\x1b":
            self.key()  # the O before the letter
            return self.ESCAPED_PAD.get(str(self.key()), "")
        return self.PAD_KEYS.get(self.curses.keyname(key).decode(), key) if isinstance(key, int) else key

    def take_keys(self, seat: Seat) -> None:
        while (pressed := self.key()) is not None:
            key = self.plain_key(pressed)
            does = self.edits.get(key) or self.in_line(key)
            if does:
                does()
            elif not self.editor.text and (key in self.steps or key in PAD):
                self.step(seat, self.steps.get(key, key))
            else:
                self.take_key(seat, key)

    def step(self, seat: Seat, digit: str) -> None:
        """Moves the chosen token; where none is chosen the window goes over the map."""
        chosen, name = seat.chosen_token(), seat.current_map()
        if chosen:
            seat.looked_at = None
            seat.typed.append(f"move {chosen} {digit}".encode())
        elif name:
            grid, (right, down) = seat.view.maps[name], PAD[digit]
            self.pan = (max(0, min(self.pan[0] + 5 * right, grid.width)), max(0, min(self.pan[1] + 5 * down, grid.height)))

    def take_key(self, seat: Seat, key: Any) -> None:
        if key == "\t":
            tokens = [token.id for token in seat.view.on_map(seat.current_map()) if token.own is not None]
            seat.choose_next(tokens, seat.chosen_token())
        elif key == self.curses.KEY_BTAB:
            seat.choose_next(sorted(seat.view.maps), seat.current_map())
        elif key in ("\n", "\r", self.curses.KEY_ENTER):
            seat.typed.append(self.editor.enter().encode("utf-8", "replace"))
            self.back = 0
        elif isinstance(key, str) and key.isprintable():
            self.editor.insert(key)

    def wait(self, seat: Seat, connection: Connection) -> bool:
        """Waits for a key or for the server, and says whether the server sent something. A resized window is met in time."""
        sources: list[Any] = [connection.socket] if seat.broken is None else []
        if os.name == "nt":  # where select takes sockets alone
            if not sources:
                time.sleep(MOMENT)
            return bool(sources and select.select(sources, [], [], MOMENT)[0])
        ready, _, _ = select.select([*sources, sys.stdin], [], [], IDLE)
        return connection.socket in ready

    def run(self, seat: Seat, place: Place, connection: Connection) -> None:
        while seat.ended is None:
            self.draw(seat)
            if self.wait(seat, connection):
                connection.receive(seat)
            self.take_keys(seat)
            seat.advance()
            if seat.wants_again:
                connection = place.sit_again(seat, connection)
