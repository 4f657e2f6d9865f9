"""Lines and words of an input, and how it is refused."""

from __future__ import annotations

import re
from typing import NoReturn

from cards import CARD_OF, Card
from play import SIDES, Act

NUMBER = re.compile(r"0|[1-9][0-9]*")
MOST_NUMBER = 4_294_967_295
MOST_BYTES = 8_388_608
MOST_ACTS = 32


class Refused(Exception):
    """An input that is refused: the line, counted from 1, and the number of the reason."""

    def __init__(self, line: int, number: int) -> None:
        super().__init__(line, number)
        self.line = line
        self.number = number


class Lines:
    """The lines of an input, read one after another."""

    def __init__(self, data: bytes) -> None:
        if len(data) > MOST_BYTES:
            raise Refused(0, 2)
        bad = re.search(rb"[^\n -~]", data)
        if bad is not None:
            raise Refused(data.count(b"\n", 0, bad.start()) + 1, 1)
        if data and not data.endswith(b"\n"):
            raise Refused(data.count(b"\n") + 1, 3)
        self.lines = data.decode("ascii").split("\n")[:-1]
        self.line = 0  # that was read last

    def refuse(self, number: int) -> NoReturn:
        """Refuses the line that was read last."""
        raise Refused(self.line, number)

    def words(self) -> list[str]:
        """The words of the next line."""
        self.line += 1
        if self.line > len(self.lines):
            self.refuse(3)
        words = self.lines[self.line - 1].split(" ")
        if "" in words:
            self.refuse(4)
        return words

    def after(self, keyword: str, number: int) -> list[str]:
        """The words of the next line after its keyword: so many."""
        words = self.words()
        if words[0] != keyword or len(words) != number + 1:
            self.refuse(4)
        return words[1:]

    def header(self, keyword: str, versions: tuple[int, ...]) -> int:
        """The version of a section."""
        version = self.number(self.after(keyword, 1)[0])
        if version not in versions:
            self.refuse(7)
        return version

    def end(self) -> None:
        """Refuses a line after the last section."""
        if self.line < len(self.lines):
            raise Refused(self.line + 1, 8)

    def number(self, word: str) -> int:
        """The number of a word."""
        if NUMBER.fullmatch(word) is None or int(word) > MOST_NUMBER:
            self.refuse(6)
        return int(word)

    def card(self, word: str) -> Card:
        """The card of a word."""
        if word not in CARD_OF:
            self.refuse(5)
        return CARD_OF[word]

    def number_of_acts(self, keyword: str) -> int:
        """How many acts or turns are announced."""
        number = self.number(self.after(keyword, 1)[0])
        if number > MOST_ACTS:
            self.refuse(6)
        return number

    def act(self) -> Act:
        """The act of the next line."""
        words = self.words()
        if len(words) != 2 or words[0] not in SIDES:
            self.refuse(4)
        return Act(SIDES.index(words[0]), None if words[1] == "go" else self.card(words[1]))
