"""Cards: ranks, suits, what they count, and how they are written."""

from __future__ import annotations

from collections.abc import Iterable
from typing import NamedTuple

RANKS = "A23456789TJQK"
SUITS = "CDHS"
JACK = RANKS.index("J")


class Card(NamedTuple):
    """A card: the places of its letters in RANKS and SUITS. Cards are ordered by rank and within a rank by suit."""

    rank: int
    suit: int

    def text(self) -> str:
        """The two letters of the card."""
        return RANKS[self.rank] + SUITS[self.suit]


DECK = tuple(Card(rank, suit) for rank in range(13) for suit in range(4))
CARD_OF = {card.text(): card for card in DECK}


def value_of(rank: int) -> int:
    """What a rank counts: an ace 1, ten to king 10, the others what they show."""
    return min(rank + 1, 10)


def cards_text(cards: Iterable[Card]) -> str:
    """Some cards on one line."""
    return " ".join(card.text() for card in cards)


def ranks_of(cards: Iterable[Card]) -> tuple[int, ...]:
    """The ranks of some cards, the lowest first."""
    return tuple(sorted(card.rank for card in cards))
