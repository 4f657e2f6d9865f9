"""What the owner can see in the middle of a deal, and every deal that agrees with it.

The opponent's six cards are tried in two steps. In the play only the ranks of the four that they hold count: the suits
and the throw are never asked for. So two deals whose holds have the same ranks can be played in the same ways, with the
same points, and one of them represents both: what they may hold is a set of ranks, of every four unseen cards. In the
show suits and the throw count too, and there every hold of these ranks is tried with every throw.
"""

from __future__ import annotations

from collections.abc import Iterator
from functools import cached_property
from itertools import combinations
from typing import NamedTuple

from cards import DECK, Card, ranks_of
from game import Game
from plan import GO
from play import OPPONENT, OWNER, Table
from problem import Problem
from show import counted, points_of

Hand = tuple[Card, ...]
Ranks = tuple[int, ...]  # of some cards, the lowest first


def without(ranks: Ranks, rank: int) -> Ranks:
    """The ranks, one of them once less."""
    place = ranks.index(rank)
    return ranks[:place] + ranks[place + 1 :]


class View(NamedTuple):
    """What the owner can see."""

    table: Table
    hand: Hand  # the cards that they have left
    shown: Ranks  # what the opponent has played
    left: frozenset[Ranks]  # the ranks that the opponent may have left, of each deal that agrees with their acts

    def after_own(self, card: Card | None) -> View:
        """The view after a card of the owner, or their go."""
        table, _ = self.table.after(None if card is None else card.rank)
        return self._replace(table=table, hand=tuple(other for other in self.hand if other != card))

    def fitting(self) -> list[Card]:
        """The owner's cards that fit."""
        return [card for card in self.hand if self.table.fits(card.rank)]

    def by_letter(self) -> dict[int, set[Ranks]]:
        """What the opponent may show, and what they may have left after each: every deal, with every play of it."""
        letters: dict[int, set[Ranks]] = {}
        for ranks in self.left:
            fitting = {rank for rank in ranks if self.table.fits(rank)}
            for rank in fitting:
                letters.setdefault(rank, set()).add(without(ranks, rank))
            if not fitting:
                letters.setdefault(GO, set()).add(ranks)
        return letters

    def after_shown(self, letter: int, left: set[Ranks]) -> View:
        """The view after the opponent has shown a letter."""
        table, _ = self.table.after(None if letter == GO else letter)
        shown = self.shown if letter == GO else tuple(sorted((*self.shown, letter)))
        return View(table, self.hand, shown, frozenset(left))

    def following(self) -> list[tuple[int, View]]:
        """Each letter that the opponent may show, in their order, and the view after it."""
        return [(letter, self.after_shown(letter, left)) for letter, left in sorted(self.by_letter().items())]


class Deals:
    """Every deal of a problem: four cards that the opponent holds, and two that they threw."""

    def __init__(self, problem: Problem) -> None:
        self.problem = problem
        self.unseen = [card for card in DECK if card not in problem.known()]
        self.fixed = [act.card for act in problem.played if act.side == OPPONENT and act.card is not None]
        self._points: dict[Ranks, set[tuple[int, int]]] = {}

    @cached_property
    def holds(self) -> list[Hand]:
        """Every hold, the first one first. The cards that the opponent has played already are in each."""
        others = [card for card in self.unseen if card not in self.fixed]
        more = combinations(others, 4 - len(self.fixed))
        return sorted(tuple(sorted((*self.fixed, *cards))) for cards in more)

    def throws(self, hold: Hand) -> Iterator[Hand]:
        """Every throw beside a hold, the first one first."""
        return combinations([card for card in self.unseen if card not in hold], 2)

    def view(self) -> View:
        """What the owner can see after the turns that are played already."""
        left = frozenset(map(ranks_of, self.holds))
        view = View(self.problem.first_table(), self.problem.hold, (), left)
        for act in self.problem.played:
            if act.side == OWNER:
                view = view.after_own(act.card)
            else:
                letter = GO if act.card is None else act.card.rank
                view = view.after_shown(letter, view.by_letter()[letter])
        return view

    @cached_property
    def holds_by_ranks(self) -> dict[Ranks, list[Hand]]:
        """The holds of each four ranks, the first one first."""
        holds: dict[Ranks, list[Hand]] = {}
        for hold in self.holds:
            holds.setdefault(ranks_of(hold), []).append(hold)
        return holds

    @cached_property
    def own_points(self) -> int:
        """The points of the owner's hand."""
        return points_of(self.problem.hold, self.problem.starter, is_crib=False)

    @cached_property
    def throws_by_points(self) -> dict[int, list[Hand]]:
        """The throws for each number of points that the crib may have."""
        throws: dict[int, list[Hand]] = {}
        for throw in self.throws(()):
            points = points_of((*self.problem.throw, *throw), self.problem.starter, is_crib=True)
            throws.setdefault(points, []).append(throw)
        return throws

    def points_with(self, ranks: Ranks) -> set[tuple[int, int]]:
        """The points of the opponent's hand and of the crib together, of each deal whose hold has these ranks."""
        if ranks not in self._points:
            self._points[ranks] = set()
            for hold in self.holds_by_ranks[ranks]:
                hand = points_of(hold, self.problem.starter, is_crib=False)
                self._points[ranks] |= {(hand, crib) for crib in self.cribs_beside(hold)}
        return self._points[ranks]

    def cribs_beside(self, hold: Hand) -> list[int]:
        """Each number of points that the crib has with some throw beside a hold."""
        return [
            points
            for points, throws in self.throws_by_points.items()
            if any(throw[0] not in hold and throw[1] not in hold for throw in throws)
        ]

    def ending(self, table: Table, hand: int, crib: int) -> str:
        """How a deal ends in the show, from the points of the opponent's hand and of the crib."""
        dealer = self.problem.dealer
        points = (self.own_points, hand)
        shown = [(1 - dealer, points[1 - dealer]), (dealer, points[dealer]), (dealer, crib)]
        return counted(table.scores, table.target, self.problem.is_stop(), shown)[1]

    def is_sure(self, view: View) -> bool:
        """Whether the owner reaches the goal in every deal that agrees, where all eight cards are played."""
        return all(
            self.ending(view.table, hand, crib) == "reached" for hand, crib in self.points_with(view.shown)
        )

    def first(self, view: View) -> Game:
        """The first deal that agrees."""
        agreeing = {tuple(sorted((*view.shown, *left))) for left in view.left}
        for hold in self.holds:
            if ranks_of(hold) in agreeing:
                return Game(hold, next(self.throws(hold)), ())
        raise AssertionError("no deal agrees")

    def first_unsure(self, view: View) -> tuple[Game, str]:
        """The first deal that agrees in which the owner misses the goal in the show, and how it ends."""
        starter = self.problem.starter
        for hold in self.holds_by_ranks[view.shown]:
            hand = points_of(hold, starter, is_crib=False)
            for throw in self.throws(hold):
                crib = points_of((*self.problem.throw, *throw), starter, is_crib=True)
                ending = self.ending(view.table, hand, crib)
                if ending != "reached":
                    return Game(hold, throw, ()), ending
        raise AssertionError("each deal is sure")
