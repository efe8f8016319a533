"""The line that is typed: a text with a cursor, and the lines that were typed before."""

from __future__ import annotations

from dataclasses import dataclass, field

MOST_KEPT = 500  # lines


@dataclass
class Editor:
    text: str = ""
    cursor: int = 0
    before: list[str] = field(default_factory=list)  # the lines that were typed, the last one last
    place: int = 0  # of the line that is shown among them; behind the last where it is a new one
    new: str = ""  # the new line, while an older one is shown

    def insert(self, text: str) -> None:
        self.text = self.text[: self.cursor] + text + self.text[self.cursor :]
        self.cursor += len(text)

    def enter(self) -> str:
        """The line as it stands; a new one begins."""
        line = self.text
        if line and self.before[-1:] != [line]:
            self.before = [*self.before, line][-MOST_KEPT:]
        self.text, self.cursor, self.place, self.new = "", 0, len(self.before), ""
        return line

    def left(self) -> None:
        self.cursor = max(0, self.cursor - 1)

    def right(self) -> None:
        self.cursor = min(len(self.text), self.cursor + 1)

    def to_begin(self) -> None:
        self.cursor = 0

    def to_end(self) -> None:
        self.cursor = len(self.text)

    def rub_out(self) -> None:
        """Takes out the character before the cursor."""
        if self.cursor:
            self.text = self.text[: self.cursor - 1] + self.text[self.cursor :]
            self.cursor -= 1

    def delete(self) -> None:
        """Takes out the character at the cursor."""
        self.text = self.text[: self.cursor] + self.text[self.cursor + 1 :]

    def cut_before(self) -> None:
        self.text, self.cursor = self.text[self.cursor :], 0

    def cut_behind(self) -> None:
        self.text = self.text[: self.cursor]

    def cut_word(self) -> None:
        """Takes out the word before the cursor, with the spaces behind it."""
        front = self.text[: self.cursor].rstrip(" ")
        front = front[: front.rfind(" ") + 1]
        self.text, self.cursor = front + self.text[self.cursor :], len(front)

    def previous(self) -> None:
        """Shows the line that was typed before the one that is shown."""
        if self.place:
            if self.place == len(self.before):
                self.new = self.text
            self.show(self.place - 1)

    def next(self) -> None:
        if self.place < len(self.before):
            self.show(self.place + 1)

    def show(self, place: int) -> None:
        self.place = place
        self.text = self.before[place] if place < len(self.before) else self.new
        self.cursor = len(self.text)
