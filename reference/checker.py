"""Checks a plan by every deal and every play, the first failing game first."""

from __future__ import annotations

from typing import NamedTuple

from cards import Card
from game import Game
from plan import GO, Place, Plan, place_after, start, stated
from play import OPPONENT, OWNER, Act, decided
from problem import Problem
from view import Deals, View

Shown = tuple[tuple[int, Card | int | None], ...]  # the acts since the plan began: a rank for a card of the opponent


class Failure(NamedTuple):
    """A game in which a plan fails, and how."""

    ending: str
    game: Game


class Checker:
    """A plan that is followed through every deal and every play."""

    def __init__(self, problem: Problem, plan: Plan) -> None:
        self.problem = problem
        self.plan = plan
        self.deals = Deals(problem)

    def first_failure(self) -> Failure | None:
        """The first game in which the plan fails, if there is one."""
        return self.failure_after(self.deals.view(), start(self.plan), ())

    def failure_after(self, view: View, place: Place, acts: Shown) -> Failure | None:
        """The first failure in what may follow. The opponent's letters are tried in their order."""
        if view.table.is_done():
            return self.failure_at_end(view, acts)
        if view.table.turn == OWNER:
            return self.failure_of_owner(view, place, acts)
        for letter, after in view.following():
            act = (OPPONENT, None if letter == GO else letter)
            failure = self.failure_after(after, place_after(self.plan, place, letter), (*acts, act))
            if failure is not None:
                return failure
        return None

    def failure_of_owner(self, view: View, place: Place, acts: Shown) -> Failure | None:
        """The same at the owner's turn: they are stuck, or there is one way on."""
        fitting = view.fitting()
        if not fitting:
            return self.failure_after(view.after_own(None), place, (*acts, (OWNER, None)))
        node = stated(self.plan, place)
        if node is None or node.card not in fitting:
            return Failure("stuck", self.game(self.deals.first(view), acts))
        return self.failure_after(view.after_own(node.card), node.next, (*acts, (OWNER, node.card)))

    def failure_at_end(self, view: View, acts: Shown) -> Failure | None:
        """The same where the play is over."""
        ending = decided(view.table.scores, view.table.target)
        if ending == "reached" or (ending is None and self.deals.is_sure(view)):
            return None
        if ending is not None:
            return Failure(ending, self.game(self.deals.first(view), acts))
        deal, ending = self.deals.first_unsure(view)
        return Failure(ending, self.game(deal, acts))

    def game(self, deal: Game, acts: Shown) -> Game:
        """The game of a deal: of equal ranks the opponent plays the first suit that they have left."""
        left = [card for card in deal.hold if card not in self.deals.fixed]
        written = list(self.problem.played)
        for side, what in acts:
            if side == OPPONENT and what is not None:
                what = next(card for card in left if card.rank == what)
                left.remove(what)
            written.append(Act(side, what))
        return deal._replace(acts=tuple(written))
