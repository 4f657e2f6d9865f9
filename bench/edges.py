"""Problems at an edge: where `solve` turns from a plan to `none`, as the goal or the scores ask more and more.

There a plan has to be tried to its end, and the show has to be looked at most closely.
"""

from __future__ import annotations

from collections.abc import Callable
from dataclasses import replace
from random import Random
from typing import NamedTuple

from cribbage import DECK, OPPONENT, OWNER, PLAYERS, Problem, edge_of, ladder, random_cards, random_turns


class Kind(NamedTuple):
    """Who deals, and the first word of the goal."""

    dealer: int
    goal: str

    def name(self) -> str:
        """The kind in two words."""
        return f"{PLAYERS[self.dealer]}-{self.goal}"


KINDS = [Kind(dealer, goal) for dealer in (OWNER, OPPONENT) for goal in ("win", "holes", "stop")]


def random_problem(random: Random, kind: Kind) -> Problem:
    """A problem of random cards, mostly before the first lead. Its goal and one score are still to be found."""
    cards = random_cards(random)
    random.shuffle(cards)
    scores = [random.randint(0, 120), random.choice([random.randint(0, 60), random.randint(60, 120)])]
    if kind.goal == "holes":
        scores[OWNER] = random.randint(0, 90)
    problem = Problem(
        version=random.choice([1, 2]) if kind.goal != "stop" else 2,
        dealer=kind.dealer,
        scores=(scores[OWNER], scores[OPPONENT]),
        starter=cards[0],
        hold=tuple(cards[1:5]),
        throw=tuple(cards[5:7]),
        goal="holes 1" if kind.goal == "holes" else kind.goal,
    )
    if problem.version == 1 or random.random() < 0.6:
        return problem
    hands = (set(cards[1:5]), set(cards[7:11]))
    open_table = replace(problem, goal="stop", scores=(0, 0)).table()
    return replace(problem, played=random_turns(random, open_table, hands, random.randint(1, 3)))


class Edge(NamedTuple):
    """The last problem of a ladder for which there is a plan, and the first for which there is none."""

    last: Problem | None
    none: Problem | None


def near(random: Random, problem: Problem) -> Problem:
    """The problem before the first lead, with another card or another score."""
    cards = [problem.starter, *problem.hold, *problem.throw]
    scores = list(problem.scores)
    if random.random() < 0.2:
        side = random.randrange(2)
        scores[side] = max(0, min(90, scores[side] + random.randint(-10, 10)))
    else:
        cards[random.randrange(7)] = random.choice([card for card in DECK if card not in cards])
    return replace(
        problem,
        scores=(scores[OWNER], scores[OPPONENT]),
        starter=cards[0],
        hold=tuple(cards[1:5]),
        throw=tuple(cards[5:7]),
        goal=problem.goal if problem.goal in ("win", "stop") else "holes 1",
        played=(),
    )


def edge(problem: Problem, has_plan: Callable[[Problem], bool]) -> Edge:
    """The edge of a problem's ladder."""
    problems = ladder(problem)
    first = edge_of(problems, has_plan)
    return Edge(
        last=problems[first - 1] if first > 0 else None,
        none=problems[first] if first < len(problems) else None,
    )
