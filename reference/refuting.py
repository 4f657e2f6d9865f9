"""Whether games refute every player, and whether some player is sure who sees every card that is shown, with its suit.

A player is sure if they reach the goal in every deal, with every play of it. The search for one lists every four cards
that the opponent may hold, and tries every card that they may show.
"""

from __future__ import annotations

from collections.abc import Iterable, Sequence
from dataclasses import replace

from cards import RANKS, Card, ranks_of
from finder import NONE, Finder
from game import Game, Judge
from plan import GO
from play import OPPONENT, OWNER, Act, Table, decided
from problem import Problem
from reading import Refused
from show import points_of
from view import Deals, Hand, View

Acts = tuple[Act, ...]
Cards = frozenset[Card]


def refutes(problem: Problem, games: Sequence[Game]) -> bool:
    """Whether there is a game, each misses the goal, and some game goes on with each card that the owner may play."""
    begun = {game.acts[:number] for game in games for number in range(len(game.acts) + 1)}
    return bool(games) and all(is_missed(problem, game) and owed(problem, game) <= begun for game in games)


def is_missed(problem: Problem, game: Game) -> bool:
    """Whether a game is legal, begins with the opening and is over, and the owner misses the goal."""
    try:
        return Judge(problem, None, game).report().ending in ("lost", "short")
    except Refused:
        return False


def owed(problem: Problem, game: Game) -> set[Acts]:
    """What some game has to begin with: at each card of the owner after the opening, each that they may play there."""
    beginnings: set[Acts] = set()
    table, hand = problem.first_table(), set(problem.hold)
    for number, act in enumerate(game.acts):
        if number >= len(problem.played) and act.side == OWNER:
            fitting = (Act(OWNER, card) for card in hand if table.fits(card.rank))
            beginnings |= {(*game.acts[:number], other) for other in fitting}
        if act.side == OWNER:
            hand.discard(act.card)
        table = after(table, act.card)
    return beginnings


def after(table: Table, card: Card | None) -> Table:
    """The table after a card or a go."""
    return table.after(None if card is None else card.rank)[0]


def without(hand: Hand, card: Card | None) -> Hand:
    """The cards of a hand but for one."""
    return tuple(other for other in hand if other != card)


def shown_next(table: Table, left: Iterable[Cards]) -> dict[Card | None, set[Cards]]:
    """What the opponent may show, and what they may have left after it: every hold, with every play of it."""
    found: dict[Card | None, set[Cards]] = {}
    for cards in left:
        fitting = [card for card in cards if table.fits(card.rank)]
        for card in fitting:
            found.setdefault(card, set()).add(cards - {card})
        if not fitting:
            found.setdefault(None, set()).add(cards)
    return found


def letters_by_suit(problem: Problem, finder: Finder) -> str:
    """The ranks that the opponent may show next after which suits decide: after each card a plan is sure, after all none."""
    view = finder.deals.view()
    if view.table.turn != OPPONENT:
        return ""
    ranks = [
        letter
        for letter, after in view.following()
        if letter != GO and not after.table.is_done() and finder.place_at(after) == NONE
    ]
    taken = {*problem.known(), *finder.deals.fixed}
    return "".join(RANKS[rank] for rank in ranks if all(has_plan_after(problem, card) for card in four(rank) - taken))


def four(rank: int) -> set[Card]:
    """The cards of a rank."""
    return {Card(rank, suit) for suit in range(4)}


def has_plan_after(problem: Problem, card: Card) -> bool:
    """Whether a plan is sure once the opponent has shown a card."""
    longer = replace(problem, version=2, played=(*problem.played, Act(OPPONENT, card)))
    return Finder(longer).plan() is not None


class Players:
    """The players of a problem: whether one of them is sure. With a finder, no card is tried where a plan is sure."""

    def __init__(self, problem: Problem, finder: Finder | None) -> None:
        self.problem = problem
        self.finder = finder
        self.deals = Deals(problem)
        self.points: dict[Cards, tuple[int, list[int]]] = {}  # of a hold, and of the crib beside it

    def has_sure(self) -> bool:
        """Whether some player is sure."""
        table, hand = self.problem.first_table(), self.problem.hold
        left = set(map(frozenset, self.deals.holds))
        for act in self.problem.played:
            if act.side == OPPONENT:
                left = shown_next(table, left)[act.card]
            hand = without(hand, act.card)
            table = after(table, act.card)
        return self.has_sure_from(table, hand, frozenset(self.deals.fixed), left)

    def has_sure_from(self, table: Table, hand: Hand, shown: Cards, left: set[Cards]) -> bool:
        """The same from a table on, by what the owner has, what was shown, and what the opponent may have left."""
        if self.finder is not None:
            view = View(table, hand, ranks_of(shown), frozenset(map(ranks_of, left)))
            if self.finder.place_at(view) != NONE:
                return True
        if table.is_done():
            ending = decided(table.scores, table.target)
            return ending == "reached" or (ending is None and self.is_sure_in_show(table, shown))
        if table.turn == OPPONENT:
            return all(
                self.has_sure_from(after(table, card), hand, shown | ({card} - {None}), others)
                for card, others in shown_next(table, left).items()
            )
        choice = [card for card in hand if table.fits(card.rank)] or [None]
        return any(self.has_sure_from(after(table, card), without(hand, card), shown, left) for card in choice)

    def is_sure_in_show(self, table: Table, hold: Cards) -> bool:
        """Whether the owner reaches the goal with every throw beside a hold."""
        if hold not in self.points:
            cards = tuple(sorted(hold))
            hand = points_of(cards, self.problem.starter, is_crib=False)
            self.points[hold] = hand, self.deals.cribs_beside(cards)
        hand, cribs = self.points[hold]
        return all(self.deals.ending(table, hand, crib) == "reached" for crib in cribs)
