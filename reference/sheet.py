"""Reads the sheet of a plan as `cribsheet plan` prints it, and follows it card by card. It knows nothing of nodes.

Of a plan that isn't sure, it also reads the head: how many deals beat the plan, and what the opponent then holds.
"""

from __future__ import annotations

import re
from collections.abc import Iterable
from itertools import pairwise
from typing import NamedTuple

from beaten import Row as DealRow
from cards import CARD_OF, RANKS, Card
from plan import GO
from view import Ranks, without

CARD = "[A23456789TJQK][CDHS]"
ROW = re.compile(rf"(?P<cards>{CARD}(?: {CARD})*)?(?:(?:, then |^)(?P<rest>look:|see \[\d+\]))?")
LINE = re.compile(r"(?P<blanks> +)(?P<letters>\S.*?) +: (?P<row>.*)")
PARAGRAPH = re.compile(r"\[(\d+)\] (.*)")
BLANKS = 4  # for each look
FIGURES = re.compile(
    r"This plan is not sure\. It reaches your goal with (\S+) of the (\S+) deals that they may have, whatever they play\. "
    r"With the other (\S+) they can beat it\.( They then hold, at least:)?.*"
)
DEALS = re.compile(r" {4}(\S.*?) +([0-9,]+)(?: deals?)?")
OTHERS = "and others"
MOST_ROWS = 12


class Row(NamedTuple):
    """Cards to play in this order, and what comes after them: a paragraph, the lines of a look, or nothing."""

    cards: tuple[Card, ...]
    paragraph: int | None = None
    look: tuple[tuple[frozenset[int], Row], ...] | None = None


class Place(NamedTuple):
    """Where a reader is: a row, and how many of its cards are played."""

    row: Row
    played: int = 0


class SheetError(ValueError):
    """A text that is no sheet of a plan."""


def letters_of(label: str) -> frozenset[int]:
    """The letters of a line: ranks, ranges of ranks, and go."""
    letters: set[int] = set()
    for word in label.split(" "):
        if word == "go":
            letters.add(GO)
        elif len(word) == 1:
            letters.add(RANKS.index(word))
        else:
            first, last = (RANKS.index(rank) for rank in word.split("-"))
            letters.update(range(first, last + 1))
    return frozenset(letters)


class Reader:
    """The lines of a sheet, read one after another."""

    def __init__(self, lines: list[str]) -> None:
        self.lines = lines
        self.at = 0

    def row(self, text: str, level: int) -> Row:
        """A row, with the lines below its look."""
        found = ROW.fullmatch(text)
        if found is None:
            raise SheetError(text)
        cards = tuple(CARD_OF[word] for word in (found["cards"] or "").split())
        rest = found["rest"]
        if rest is None:
            return Row(cards)
        if rest != "look:":
            return Row(cards, paragraph=int(rest[5:-1]))
        return Row(cards, look=tuple(self.look(level + 1)))

    def look(self, level: int) -> list[tuple[frozenset[int], Row]]:
        """The lines of a look at a level."""
        lines = []
        while self.at < len(self.lines):
            found = LINE.fullmatch(self.lines[self.at])
            if found is None or len(found["blanks"]) != BLANKS * level:
                break
            self.at += 1
            lines.append((letters_of(found["letters"]), self.row(found["row"], level)))
        return lines


class Sheet:
    """The rows of a sheet: the first one, and those of the paragraphs by their numbers."""

    def __init__(self, text: str) -> None:
        self.paragraphs: dict[int, Row] = {}
        self.first = Row(())
        for block in text.split("\n\n")[1:]:
            lines = block.rstrip("\n").split("\n")
            numbered = PARAGRAPH.fullmatch(lines[0])
            body = numbered[2] if numbered else lines[0]
            if ROW.fullmatch(body) is None:
                continue  # the opening, a failing game or the legend
            reader = Reader(lines)
            reader.at = 1
            row = reader.row(body, 0)
            if reader.at != len(lines):
                raise SheetError(lines[reader.at])
            if numbered:
                self.paragraphs[int(numbered[1])] = row
            else:
                self.first = row

    def start(self) -> Place:
        """Where a reader begins."""
        return self.on(Place(self.first))

    def on(self, place: Place) -> Place:
        """The place in the paragraph that a row names after its last card, or the place itself."""
        while place.played == len(place.row.cards) and place.row.paragraph is not None:
            place = Place(self.paragraphs[place.row.paragraph])
        return place

    @staticmethod
    def card(place: Place) -> Card | None:
        """The card that is stated at a place."""
        return place.row.cards[place.played] if place.played < len(place.row.cards) else None

    def after_card(self, place: Place) -> Place:
        """The place after the stated card."""
        return self.on(place._replace(played=place.played + 1))

    def after_letter(self, place: Place, letter: int) -> Place:
        """The place after a rank or a go of the opponent. It changes only at a look."""
        if place.played < len(place.row.cards) or place.row.look is None:
            return place
        for letters, row in place.row.look:
            if letter in letters:
                return self.on(Place(row))
        return Place(Row(()))


def number_of(word: str) -> int:
    """A number, with commas between thousands."""
    number = int(word.replace(",", ""))
    if f"{number:,}" != word:
        raise SheetError(word)
    return number


def choices_of(term: str) -> list[frozenset[int]]:
    """The ranks that each card of a row may have: one, or one of those in brackets."""
    words = re.findall(r"\(([^()]+)\)|(\S)", term)
    return [letters_of(some) if some else letters_of(one) for some, one in words]


def meets(ranks: Ranks, choices: list[frozenset[int]]) -> bool:
    """Whether among these ranks is a card for each choice, no card for two."""
    if not choices:
        return True
    return any(meets(without(ranks, rank), choices[1:]) for rank in set(ranks) & choices[0])


class Head:
    """The head of the sheet of a plan that isn't sure."""

    def __init__(self, text: str) -> None:
        head, game, _ = text[text.find("This plan is not sure") :].partition("In this game ")
        lines = [line for line in head.rstrip().split("\n") if line]
        rows = [DEALS.fullmatch(line) for line in lines if line.startswith(" ")]
        found = FIGURES.fullmatch(" ".join(line for line in lines if not line.startswith(" ")))
        if not game or found is None or None in rows or bool(found[4]) != bool(rows) or len(rows) > MOST_ROWS + 1:
            raise SheetError(head)
        self.figures = tuple(number_of(word) for word in found.groups()[:3])
        self.rows = [(row[1], number_of(row[2])) for row in rows if row]
        figures = [figure for term, figure in self.rows if term != OTHERS]
        if any(one < other for one, other in pairwise(figures)) or OTHERS in [term for term, _ in self.rows[:-1]]:
            raise SheetError(head)

    def rows_of_deals(self) -> list[int]:
        """The figure of each row, and what is left for the others."""
        figures = [figure for _, figure in self.rows]
        return figures if self.rows[-1][0] == OTHERS else [*figures, 0]

    def counts(self, rows: Iterable[DealRow]) -> list[int]:
        """How many deals that beat the plan are in each row, and in none: each is in the first that it meets."""
        terms = [choices_of(term) for term, _ in self.rows if term != OTHERS]
        counts = [0] * (len(terms) + 1)
        for row in rows:
            counts[next((at for at, term in enumerate(terms) if meets(row.ranks, term)), len(terms))] += row.beaten
        return counts
