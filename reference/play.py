"""The play, in strict alternation: turns alternate always, and a turn is a go exactly when no card of its player fits.

Only ranks count in the play. Suits don't, nor does what was thrown.
"""

from __future__ import annotations

from typing import NamedTuple

from cards import Card, value_of

OWNER, OPPONENT = 0, 1
PLAYERS = ("owner", "opponent")
SIDES = ("own", "opp")
LAST_HOLE = 121


class Act(NamedTuple):
    """A card that a side plays, or a go that it says."""

    side: int
    card: Card | None

    def text(self) -> str:
        """The line of this act."""
        return f"{SIDES[self.side]} {'go' if self.card is None else self.card.text()}"


def count_of(pile: tuple[int, ...]) -> int:
    """The count of the ranks that lie on the table."""
    return sum(map(value_of, pile))


def alike_points(pile: tuple[int, ...]) -> int:
    """2, 6 or 12 points where the last two, three or four cards are of one rank."""
    for number, points in ((4, 12), (3, 6), (2, 2)):
        if len(pile) >= number and len(set(pile[-number:])) == 1:
            return points
    return 0


def run_points(pile: tuple[int, ...]) -> int:
    """The points of the longest run that the last three or more cards make."""
    for length in range(len(pile), 2, -1):
        last = sorted(pile[-length:])
        if last == list(range(last[0], last[0] + length)):
            return length
    return 0


def pile_points(pile: tuple[int, ...]) -> int:
    """The points of the last card laid, but for the one of the eighth card."""
    return 2 * (count_of(pile) in (15, 31)) + alike_points(pile) + run_points(pile)


def changed(pair: tuple, side: int, new) -> tuple:
    """The pair with another value for this side."""
    return (new, pair[1]) if side == OWNER else (pair[0], new)


class Table(NamedTuple):
    """What everybody sees between two turns."""

    turn: int
    pile: tuple[int, ...]  # the ranks laid since the count began
    gos: int  # how many gos came last, one after another
    last: int  # who played the last card
    left: tuple[int, int]  # how many cards each side holds
    said: tuple[bool, bool]  # whether a side has said go since the count began
    scores: tuple[int, int]
    target: int  # the hole that the owner wants

    @staticmethod
    def first(dealer: int, scores: tuple[int, int], target: int) -> Table:
        """The table before the first lead, which is the pone's."""
        pone = 1 - dealer
        return Table(pone, (), 0, pone, (4, 4), (False, False), scores, target)

    def count(self) -> int:
        """The count."""
        return count_of(self.pile)

    def fits(self, rank: int) -> bool:
        """Whether a card of this rank leaves the count at 31 or less."""
        return self.count() + value_of(rank) <= 31

    def is_done(self) -> bool:
        """Whether the deal is over: a score decides it, or all eight cards are played."""
        return decided(self.scores, self.target) is not None or self.left == (0, 0)

    def _after_card(self, rank: int) -> tuple[Table, int]:
        """The table after one turn in which a card is played, and its points."""
        pile = (*self.pile, rank)
        left = changed(self.left, self.turn, self.left[self.turn] - 1)
        is_31 = count_of(pile) == 31
        points = pile_points(pile) + (left == (0, 0) and not is_31)
        after = self._replace(
            turn=1 - self.turn,
            pile=() if is_31 else pile,
            gos=0,
            last=self.turn,
            left=left,
            said=(False, False) if is_31 else self.said,
            scores=scored(self.scores, self.turn, points),
        )
        return after, points

    def _after_go(self) -> tuple[Table, int]:
        """The table after one turn that is a go, said or silent, and its points: those of the last card's player."""
        if self.gos == 0 or not self.pile:
            said = self.said if self.is_silent() else changed(self.said, self.turn, True)
            return self._replace(turn=1 - self.turn, gos=1, said=said), 0
        closed = self._replace(
            turn=1 - self.turn, pile=(), gos=0, said=(False, False), scores=scored(self.scores, self.last, 1)
        )
        return closed, 1

    def is_silent(self) -> bool:
        """Whether the side whose turn it is goes and doesn't say so: it holds no card, or has said go before."""
        return self.left[self.turn] == 0 or self.said[self.turn]

    def after(self, rank: int | None) -> tuple[Table, int]:
        """The table after a card, or a go that is said, and all silent gos that follow; and the points of it all."""
        table, points = self._after_go() if rank is None else self._after_card(rank)
        while not table.is_done() and table.is_silent():
            table, more = table._after_go()
            points += more
        return table, points


def scored(scores: tuple[int, int], side: int, points: int) -> tuple[int, int]:
    """The scores with some points more for a side, cut at the last hole."""
    return changed(scores, side, min(scores[side] + points, LAST_HOLE))


def decided(scores: tuple[int, int], target: int) -> str | None:
    """How the scores decide the deal, if they do."""
    if scores[OWNER] >= target:
        return "reached"
    return "lost" if scores[OPPONENT] >= LAST_HOLE else None
