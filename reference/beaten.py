"""Counts the deals that beat a plan: every deal is listed, and every play of it is tried.

A deal beats a plan if the opponent can play its cards so that the plan fails. In the play only the ranks of the four
cards that they hold count, so each choice of ranks is played once, in every order that the rules allow. A play that
fails before the show makes every deal of these ranks beat the plan. The other plays end at some scores, and from each
of these every hold of these ranks is counted with every throw beside it.
"""

from __future__ import annotations

from itertools import combinations
from typing import NamedTuple

from cards import RANKS, Card
from plan import GO, Place, Plan, place_after, start, stated
from play import OPPONENT, OWNER, Table, decided
from problem import Problem
from show import points_of
from view import Deals, Hand, Ranks, without

Scores = tuple[int, int]
Ends = frozenset[Scores]  # of plays in which all eight cards are played and no score decides


class Row(NamedTuple):
    """How many open deals have these ranks, and how many of them beat the plan."""

    ranks: Ranks
    beaten: int
    open_deals: int

    def text(self) -> str:
        """The line of this row."""
        return f"{''.join(RANKS[rank] for rank in self.ranks)} {self.beaten} of {self.open_deals}\n"


class Tally(NamedTuple):
    """A row for each choice of ranks with an open deal, in their order."""

    rows: list[Row]

    @property
    def beaten(self) -> int:
        """How many deals beat the plan."""
        return sum(row.beaten for row in self.rows)

    @property
    def open_deals(self) -> int:
        """How many deals agree with the opening."""
        return sum(row.open_deals for row in self.rows)

    def text(self) -> str:
        """What `cribsheet beaten` prints."""
        rows = "".join(row.text() for row in self.rows if row.beaten)
        return f"beaten {self.beaten} of {self.open_deals}\n{rows}"


class Beaten:
    """The deals of a problem, each tried against a plan."""

    def __init__(self, problem: Problem, plan: Plan) -> None:
        self.problem = problem
        self.plan = plan
        self.deals = Deals(problem)
        self.beating: dict[tuple[Ends, int], frozenset[Hand]] = {}

    def tally(self) -> Tally:
        """The rows of all choices of ranks."""
        holds = sorted(self.deals.holds_by_ranks.items())
        return Tally([self.row(ranks, of_ranks) for ranks, of_ranks in holds if self.is_open(ranks)])

    def is_open(self, ranks: Ranks) -> bool:
        """Whether the opponent's turns of the opening are legal with four cards of these ranks."""
        table, left = self.problem.first_table(), ranks
        for act in self.problem.played:
            if act.side == OPPONENT:
                if act.card is None and any(table.fits(rank) for rank in left):
                    return False
                if act.card is not None and act.card.rank not in left:
                    return False
                left = left if act.card is None else without(left, act.card.rank)
            table, _ = table.after(None if act.card is None else act.card.rank)
        return True

    def row(self, ranks: Ranks, holds: list[Hand]) -> Row:
        """Every hold of these ranks with every throw beside it."""
        open_deals = beaten = 0
        ends = self.ends_of(ranks)
        for hold in holds:
            throws = self.deals.throws(hold)
            if ends is None:
                beats = [True for _ in throws]
            else:
                beats = list(map(self.beating_throws(ends, hold).__contains__, throws))
            open_deals += len(beats)
            beaten += sum(beats)
        return Row(ranks, beaten, open_deals)

    def beating_throws(self, ends: Ends, hold: Hand) -> frozenset[Hand]:
        """The throws with which a hold misses the owner's goal in the show, from one of the ends of its plays."""
        hand = points_of(hold, self.problem.starter, is_crib=False)
        if (ends, hand) not in self.beating:
            first = self.problem.first_table()
            tables = [first._replace(scores=scores) for scores in ends]
            self.beating[ends, hand] = frozenset(
                throw
                for crib, throws in self.deals.throws_by_points.items()
                if any(self.deals.ending(table, hand, crib) != "reached" for table in tables)
                for throw in throws
            )
        return self.beating[ends, hand]

    def ends_of(self, ranks: Ranks) -> Ends | None:
        """The ends of every play in which the opponent holds these ranks, or None if some play fails before the show."""
        ends: set[Scores] = set()
        hand = frozenset(self.problem.hold) - {act.card for act in self.problem.played}
        left = ranks
        for act in self.problem.played:
            if act.side == OPPONENT and act.card is not None:
                left = without(left, act.card.rank)
        is_safe = self.is_safe(self.problem.table(), hand, left, start(self.plan), ends)
        return frozenset(ends) if is_safe else None

    def is_safe(self, table: Table, hand: frozenset[Card], left: Ranks, place: Place, ends: set[Scores]) -> bool:
        """Whether no play that goes on from here fails before the show. Adds the ends of these plays."""
        if table.is_done():
            ending = decided(table.scores, table.target)
            if ending is None:
                ends.add(table.scores)
            return ending != "lost"
        if table.turn == OWNER:
            if not any(table.fits(card.rank) for card in hand):
                return self.is_safe(table.after(None)[0], hand, left, place, ends)
            node = stated(self.plan, place)
            if node is None or node.card not in hand or not table.fits(node.card.rank):
                return False  # stuck
            return self.is_safe(table.after(node.card.rank)[0], hand - {node.card}, left, node.next, ends)
        fitting = sorted({rank for rank in left if table.fits(rank)})
        if not fitting:
            return self.is_safe(table.after(None)[0], hand, left, place_after(self.plan, place, GO), ends)
        return all(
            self.is_safe(
                table.after(rank)[0], hand, without(left, rank), place_after(self.plan, place, rank), ends
            )
            for rank in fitting
        )
