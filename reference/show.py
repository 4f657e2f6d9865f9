"""The show: points of four cards and a starter, by trying every choice of the five, and the order of counting."""

from __future__ import annotations

from functools import cache
from itertools import combinations

from cards import JACK, Card, ranks_of, value_of
from play import decided, scored

CHOICES = {number: tuple(combinations(range(5), number)) for number in (2, 3, 4, 5)}


def fifteens(ranks: tuple[int, ...]) -> int:
    """Two points for each choice of cards that adds up to 15."""
    values = [value_of(rank) for rank in ranks]
    choices = (choice for number in (2, 3, 4, 5) for choice in CHOICES[number])
    return 2 * sum(sum(values[place] for place in choice) == 15 for choice in choices)


def pairs(ranks: tuple[int, ...]) -> int:
    """Two points for each pair."""
    return 2 * sum(ranks[one] == ranks[other] for one, other in CHOICES[2])


def runs(ranks: tuple[int, ...]) -> int:
    """As many points as cards for each choice of ranks in a row that no other of the five cards makes longer."""
    points = 0
    for number in (3, 4, 5):
        for choice in CHOICES[number]:
            chosen = sorted(ranks[place] for place in choice)
            first, last = chosen[0], chosen[-1]
            is_row = chosen == list(range(first, first + number))
            if is_row and first - 1 not in ranks and last + 1 not in ranks:
                points += number
    return points


@cache
def rank_points(ranks: tuple[int, ...]) -> int:
    """All that five cards have by their ranks."""
    return fifteens(ranks) + pairs(ranks) + runs(ranks)


def flush(four: tuple[Card, ...], starter: Card, is_crib: bool) -> int:
    """Four points for four cards of one suit, five with a starter of that suit; in a crib only the five."""
    if len({card.suit for card in four}) > 1:
        return 0
    if starter.suit == four[0].suit:
        return 5
    return 0 if is_crib else 4


def jack(four: tuple[Card, ...], starter: Card) -> int:
    """A point for the jack of the starter's suit."""
    return 1 if Card(JACK, starter.suit) in four else 0


def points_of(four: tuple[Card, ...], starter: Card, is_crib: bool) -> int:
    """All points of a hand or of a crib."""
    return rank_points(ranks_of((*four, starter))) + flush(four, starter, is_crib) + jack(four, starter)


def counted(
    scores: tuple[int, int], target: int, is_stop: bool, shown: list[tuple[int, int]]
) -> tuple[list[tuple[int, int]], str]:
    """The scores after each hand that is counted, and how the deal ends.

    `shown` has the side and the points of each hand, in the order of counting. Nothing is counted once a score decides.
    """
    after: list[tuple[int, int]] = []
    ending = decided(scores, target)
    for side, points in shown:
        if ending is not None:
            break
        scores = scored(scores, side, points)
        after.append(scores)
        ending = decided(scores, target)
    return after, ending or ("reached" if is_stop else "short")
