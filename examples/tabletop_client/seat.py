"""One seat's session without its connection: what it is shown, what was typed, and what waits for an answer."""

from __future__ import annotations

import contextlib
import json
import os
import pathlib
import tempfile
from collections import deque
from typing import BinaryIO, Callable

from .drawing import fight_text
from .protocol import (GAME_MASTER, HELP, LINES_IN_A_RUN, LONGEST_LINE, SILENT, BadInput, command_of, compact, message_words, refusal_words,
                       split_word, wholes)  # fmt: skip
from .view import Object, Token, Unreadable, View, part, printable
from .walls import walls_text

Send = Callable[[bytes], None]
AGAIN = {b"again", b"/again"}
HOW_TO_GO_ON = "again sits down once more with the same key, bye leaves"


def write_beside(path: pathlib.Path, text: str) -> None:
    """Writes a file that its owner alone can read, and gives it the name once it is whole."""
    handle, beside = tempfile.mkstemp(dir=path.parent, prefix=path.name + ".")
    try:
        with open(handle, "w", encoding="utf-8", newline="") as out:
            out.write(text)
            out.flush()
            os.fsync(out.fileno())
        os.replace(beside, path)
    except BaseException:
        with contextlib.suppress(OSError):
            os.unlink(beside)
        raise


class Seat:
    """One seat's session. `send` puts a line out, `say` shows words, and `log`, where there is one, keeps each line as it came."""

    def __init__(self, number: int, send: Send, say: Callable[[str], None], log: BinaryIO | None = None) -> None:
        self.number, self.send, self.say, self.log = number, send, say, log
        self.view = View()
        self.joined = self.has_sat = self.redraw = False
        self.typed: deque[bytes] = deque()
        self.waits: Object | None = None  # the command that was sent and isn't answered yet
        self.chosen: str | None = None
        self.looked_at: str | None = None
        self.to_overwrite: str | None = None  # the file of which was asked whether it may be written over
        self.broken: str | None = None  # how the connection was lost, while there is none
        self.wants_again = False  # a new connection was asked for
        self.ended: str | None = None
        self.status = 0  # what the program ends with

    # ---- the session
    def sit_down(self, send: Send, key: str) -> None:
        """Begins a session on a connection, as the first or once more."""
        self.send, self.view = send, View()
        self.joined = self.wants_again = False
        self.waits = self.broken = None
        self.put({"do": "hello", "key": key, "seat": self.number})

    def end(self, sentence: str, status: int) -> None:
        if self.ended is None:
            self.ended, self.status = sentence, status

    def lose(self, sentence: str) -> None:
        """The connection is of no use any more. Who sat at the table may sit down again."""
        self.joined, self.waits = False, None
        if not self.has_sat:
            self.end(sentence, 1)
        elif self.ended is None and self.broken is None:
            self.broken = sentence
            self.say(f"{sentence}; {HOW_TO_GO_ON}")

    # ---- what comes
    def take(self, raw: bytes) -> None:
        """Takes in a line of the server; one that can't be read ends the session."""
        self.keep(raw)
        try:
            self.take_line(json.loads(raw.decode("utf-8")))
        except (Unreadable, KeyError, ValueError, TypeError, AttributeError, RecursionError) as fault:
            why = f"{fault} is missing, or wasn't shown before" if isinstance(fault, KeyError) else fault
            self.end(f"the server sent a line that can't be read ({why}): {raw[:80].decode('utf-8', 'replace')}", 1)

    def keep(self, raw: bytes) -> None:
        """Writes a line to the log, as it came."""
        if self.log is not None:
            try:
                self.log.write(raw + b"\n")
            except OSError as fault:
                self.log = None
                self.say(f"the log ends here: {fault}")

    def take_line(self, line: Object) -> None:
        if "full" in line:
            self.view = View.read(line["full"])
        elif "change" in line:
            self.view.apply(line["change"])
        elif "from" in line:
            self.say(message_words(line))
        elif "refused" in line:
            self.take_refusal(line)
        elif "ok" in line:
            self.take_reply(line)
        else:
            raise Unreadable("it is none of the protocol's lines")

    def take_refusal(self, line: Object) -> None:
        words, self.waits = refusal_words(line), None
        if self.joined:
            self.say(words)
        else:
            self.lose(f"the server refused the hello: {words}")

    def take_reply(self, line: Object) -> None:
        sent, self.waits = self.waits or {}, None
        command = part(line, "ok", str)
        if command == "hello":
            self.joined = self.has_sat = True
            self.say(f"you sit at seat {line['seat']}; the table has {line['seats']}, and seat 0 is the game master's")
        elif command == "bye":
            self.end("you left the table", 0)
        elif command == "move":
            self.take_steps(sent, part(line, "moved", int))
        elif command == "dump":
            self.take_dump(sent, part(line, "dump", dict))
        elif command not in SILENT:
            self.say(f"ok: {printable(command)}")
        if line["n"] == LINES_IN_A_RUN:
            self.end("that was the last line that the seat has in this run", 1)

    def take_steps(self, sent: Object, moved: int) -> None:
        """The reply tells where the token stands now before the change line does, so steps in a row go on from there."""
        path = sent.get("path", [])
        if moved < len(path):
            self.say(f"stopped after {moved} of {len(path)} steps")
        if 0 < moved <= len(path) and sent["token"] in self.view.tokens:
            self.view.tokens[sent["token"]].cell = path[moved - 1]

    def take_dump(self, sent: Object, campaign: Object) -> None:
        """The campaign, for which `dump`, `save` or `walls` asked."""
        if "save" in sent:
            self.save(sent["save"], compact(campaign))
        elif "walls" in sent:
            self.say(walls_text(campaign, *sent["walls"]))
        else:
            self.say(compact(campaign))

    def save(self, name: str, text: str) -> None:
        try:
            write_beside(pathlib.Path(name).expanduser(), text)
            self.say(f"the campaign is in {name}")
        except (OSError, ValueError, RuntimeError) as fault:
            self.say(f"not saved: {fault}")

    # ---- what is typed
    def advance(self) -> None:
        """Takes what was typed, line after line, up to one that waits for an answer. Where none comes, `again` waits for none."""
        if self.waits is not None and AGAIN.intersection(line.strip() for line in self.typed):
            self.typed.clear()
            self.wants_again = True
        while self.typed and self.waits is None and self.ended is None and not self.wants_again:
            raw = self.typed.popleft().strip()
            try:
                if raw:
                    self.take_typed(raw)
            except UnicodeError:
                self.say("what was typed isn't UTF-8")
            except BadInput as fault:
                self.say(str(fault))

    def take_typed(self, raw: bytes) -> None:
        """Takes a typed line: one of the client's own, or one for the server, which goes as it is where it begins with a brace."""
        if raw.startswith(b"{"):
            self.put_line(raw, {})
            return
        text = raw.decode("utf-8")
        if self.answers(text):
            return
        name, rest = split_word(text.lstrip("/"))
        does: dict[str, Callable[[], None]] = {
            "help": lambda: self.say(HELP),
            "tokens": lambda: self.say("\n".join(f"{token.map}: {token.words()}" for token in self.view.tokens.values())),
            "fight": lambda: self.say("\n".join(fight_text(self.view)) or "you are shown no fight"),
            "types": lambda: self.say(compact({"lights": self.view.lights, "sights": self.view.sights})),
            "draw": self.draw,
            "choose": lambda: self.choose(rest.strip()),
            "save": lambda: self.ask_to_save(rest.strip() or "campaign.json"),
            "walls": lambda: self.ask_for_walls(rest.split()),
            "again": self.sit_again,
        }
        if name in does:
            does[name]()
        elif name == "bye" and self.broken is not None:
            self.end(self.broken, 1)
        else:
            self.put(command_of(text, self.view, self.chosen_token()))

    def answers(self, text: str) -> bool:
        """Whether the line answers the question whether a file may be written over; all but a yes or no is a line like others."""
        name, self.to_overwrite = self.to_overwrite, None
        if name is not None and text == "yes":
            self.put({"do": "dump"}, save=name)
        elif name is not None:
            self.say(f"{name} stays as it is")
        return name is not None and text in ("yes", "no")

    def draw(self) -> None:
        self.redraw = True

    def sit_again(self) -> None:
        if self.broken is None:
            raise BadInput("you sit at the table")
        self.wants_again = True

    def ask_to_save(self, name: str) -> None:
        """Asks for the campaign, to be written to a file; first whether it may be, where the file is there."""
        if os.path.lexists(os.path.expanduser(name)):
            self.to_overwrite = name
            self.say(f"{name} is there already: yes writes over it, no leaves it")
        else:
            self.put({"do": "dump"}, save=name)

    def ask_for_walls(self, words: list[str]) -> None:
        """Asks for the campaign, so that a map's walls can be drawn: walls [map] [rect]."""
        try:
            rects = [wholes(word, 4) for word in words if "," in word]
            names = [word for word in words if "," not in word] or [self.current_map() or ""]
            (name,), rect = names, rects[0] if rects else None
        except ValueError as fault:
            raise BadInput("usage: walls [map] [x,y,w,h]") from fault
        self.put({"do": "dump"}, walls=(name, rect))

    def put(self, command: Object, **more: object) -> None:
        """Sends a command; more than it is kept until its answer."""
        self.put_line(compact(command).encode("utf-8"), {**command, **more})

    def put_line(self, line: bytes, command: Object) -> None:
        if self.broken is not None:
            raise BadInput(f"there is no connection: {HOW_TO_GO_ON}")
        if len(line) > LONGEST_LINE:
            raise BadInput(f"that makes a line of {len(line)} bytes; the server ends a session at more than {LONGEST_LINE}")
        self.waits = command
        self.send(line)

    # ---- what is chosen
    def mine(self) -> list[str]:
        """The tokens that the seat may act on."""
        return [token.id for token in sorted(self.view.tokens.values(), key=Token.order) if token.own is not None]

    def chosen_token(self) -> str | None:
        """The chosen token; else a player's first one, and none for the game master."""
        mine = self.mine()
        return self.chosen if self.chosen in mine else mine[0] if mine and self.number != GAME_MASTER else None

    def current_map(self) -> str | None:
        """The map that was chosen, else that of the chosen token, else the first."""
        chosen = self.view.tokens.get(self.chosen_token() or "")
        wanted = [self.looked_at, chosen.map if chosen else None, *sorted(self.view.maps)]
        return next((name for name in wanted if name in self.view.maps), None)

    def choose(self, name: str) -> None:
        """Chooses a token, a map to look at, or no token."""
        if name in self.view.maps:
            self.looked_at = name
        elif name in self.mine():
            self.chosen, self.looked_at = name, None
        elif name == "-":
            self.chosen, self.looked_at = None, self.current_map()
        else:
            raise BadInput("choose the ID of a token that you may act on, a map that you are shown, or -")

    def choose_next(self, names: list[str], name: str | None) -> None:
        if names:
            self.choose(names[(names.index(name) + 1) % len(names)] if name in names else names[0])
