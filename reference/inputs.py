"""Random inputs for all commands: late positions of both versions, plans for them, games, and mangled texts."""

from __future__ import annotations

from collections.abc import Callable
from dataclasses import dataclass, replace
from random import Random
from typing import NamedTuple

from cards import DECK, Card
from finder import Finder
from game import Game
from mangling import mangled, padded
from plan import GO, LETTERS, Node, Plan, Play, See, place_after, plan_text, start, stated
from play import OPPONENT, OWNER, Act, Table
from problem import Problem

LATE = (3, 4, 5, 5, 6, 6, 7, 7, 8, 8, 9, 10)  # turns that are played already, mostly
EARLY = (0, 0, 1, 2)  # here a check may take the reference some seconds
ENOUGH = 5  # turns after which many problems are solved in a second


class Input(NamedTuple):
    """An input and its command."""

    command: str
    data: bytes


@dataclass(frozen=True)
class Deal:
    """A problem, and what the opponent really has."""

    problem: Problem
    hold: tuple[Card, ...]
    throw: tuple[Card, ...]


def random_cards(random: Random) -> list[Card]:
    """Thirteen cards: any, or mostly of one suit, or with many fives and jacks."""
    weight = random.choice([
        lambda card: 1,
        lambda card: 6 if card.suit == 0 else 1,
        lambda card: 8 if card.rank in (4, 10) else 1,
        lambda card: 4 if card.rank < 5 else 1,
    ])
    return sorted(DECK, key=lambda card: random.random() ** (1 / weight(card)))[-13:]


def legal_acts(table: Table, hand: set[Card]) -> list[Act]:
    """What the side asked may do."""
    cards = [Act(table.turn, card) for card in sorted(hand) if table.fits(card.rank)]
    return cards or [Act(table.turn, None)]


def after(table: Table, act: Act) -> Table:
    """The table after an act."""
    return table.after(None if act.card is None else act.card.rank)[0]


def random_turns(random: Random, table: Table, hands: tuple[set[Card], set[Card]], most: int) -> tuple[Act, ...]:
    """Some turns by legal random play, after none of which the deal is over. The cards are taken from the hands."""
    turns: list[Act] = []
    while len(turns) < most:
        act = random.choice(legal_acts(table, hands[table.turn]))
        table = after(table, act)
        if table.is_done():
            break
        hands[act.side].discard(act.card)
        turns.append(act)
    return tuple(turns)


def random_goal(random: Random, version: int, score: int) -> str:
    """A goal of a version."""
    kind = random.choice(["win", "holes", "stop"] if version == 2 else ["win", "holes"])
    return f"holes {random.randint(1, min(20, 121 - score))}" if kind == "holes" else kind


def random_deal(random: Random, turns: tuple[int, ...]) -> Deal:
    """A problem near the end of a game, after one of so many turns, and a deal of it."""
    cards = random_cards(random)
    random.shuffle(cards)
    version = 1 if max(turns) < 3 and random.random() < 0.5 else 2
    scores = random.choice([
        (random.randint(100, 120), random.randint(90, 120)),
        (random.randint(80, 110), random.randint(80, 110)),
        (random.randint(0, 120), random.randint(0, 120)),
    ])
    problem = Problem(
        version=version,
        dealer=random.choice([OWNER, OPPONENT]),
        scores=scores,
        starter=cards[0],
        hold=tuple(cards[1:5]),
        throw=tuple(cards[5:7]),
        goal=random_goal(random, version, scores[OWNER]),
    )
    deal = Deal(problem, tuple(cards[7:11]), tuple(cards[11:]))
    hands = (set(problem.hold), set(deal.hold))
    most = random.choice(turns) if version == 2 else 0
    return replace(deal, problem=replace(problem, played=random_turns(random, problem.table(), hands, most)))


def is_honest(problem: Problem) -> bool:
    """Whether the deal is over after none of the turns played already."""
    table = problem.first_table()
    for act in problem.played:
        table = after(table, act)
        if table.is_done():
            return False
    return True


def ladder(problem: Problem) -> list[Problem]:
    """The problem with each other number of holes or score, from the easiest to the hardest."""
    if problem.goal.startswith("holes"):
        others = [replace(problem, goal=f"holes {holes}") for holes in range(1, 122 - problem.scores[OWNER])]
    elif problem.goal == "win":
        others = [replace(problem, scores=(score, problem.scores[OPPONENT])) for score in range(120, -1, -1)]
    else:
        others = [replace(problem, scores=(problem.scores[OWNER], score)) for score in range(121)]
    return [other for other in others if is_honest(other)]


def edge_of(problems: list[Problem], has_plan: Callable[[Problem], bool]) -> int:
    """How many problems of a ladder have a plan, by bisection."""
    low, high = 0, len(problems)  # all before low have one, and none from high on
    while low < high:
        middle = (low + high) // 2
        if has_plan(problems[middle]):
            low = middle + 1
        else:
            high = middle
    return low


def at_edge(random: Random, problem: Problem) -> Problem:
    """The last problem of a ladder for which there is a plan, or the one beside it."""
    others = ladder(problem)
    first_without = edge_of(others, lambda other: Finder(other).plan() is not None)
    return others[max(0, min(len(others) - 1, random.choice([first_without - 1, first_without - 1, first_without])))]


def late_deal(random: Random) -> Deal:
    """A problem late in the play, often at an edge."""
    deal = random_deal(random, LATE)
    if len(deal.problem.played) < ENOUGH or random.random() < 0.3:
        return deal
    return replace(deal, problem=at_edge(random, deal.problem))


def random_plan(random: Random, hold: tuple[Card, ...]) -> Plan:
    """Cards of the hold in some order, with looks between them."""
    plan: list[Node] = []
    for card in random.sample(hold, random.randint(0, 4)):
        if random.random() < 0.3:
            plan.append(See(tuple(random.choice([len(plan) + 1, None]) for _ in LETTERS)))
        plan.append(Play(card, len(plan) + 1))
    return [*plan[:-1], Play(plan[-1].card, None)] if plan else plan


def changed_plan(random: Random, plan: Plan, hold: tuple[Card, ...]) -> Plan:
    """A plan with one change."""
    if not plan:
        return random_plan(random, hold)
    number = random.randrange(len(plan))
    node, later = plan[number], [None, *range(number + 1, len(plan))]
    if isinstance(node, See):
        letter = random.randrange(len(LETTERS))
        other: Node = See((*node.next[:letter], random.choice(later), *node.next[letter + 1 :]))
    elif random.random() < 0.5:
        other = Play(random.choice(hold), node.next)
    else:
        other = Play(node.card, random.choice(later))
    return [*plan[:number], other, *plan[number + 1 :]]


def some_plan(random: Random, problem: Problem) -> Plan:
    """A plan: a sure one, one that is never stuck, such a plan with a change or two, or a random one."""
    if random.random() < 0.1:
        return random_plan(random, problem.hold)
    is_late = len(problem.played) >= ENOUGH
    plan = Finder(problem).plan() if random.random() < 0.7 or not is_late else None
    if plan is None and is_late:
        # No deal takes the opponent from hole 0 to 121, so here every plan is sure that is never stuck.
        plan = Finder(replace(problem, version=2, scores=(0, 0), goal="stop")).plan()
    plan = plan or random_plan(random, problem.hold)
    for _ in range(random.choice([0, 0, 0, 1, 2])):
        plan = changed_plan(random, plan, problem.hold)
    return plan


def random_game(random: Random, deal: Deal, plan: Plan | None) -> Game:
    """A game by legal random play, often a whole one. With a plan the owner follows it as far as they can."""
    problem = deal.problem
    played = [{act.card for act in problem.played if act.side == side} for side in (OWNER, OPPONENT)]
    hands = (set(problem.hold) - played[OWNER], set(deal.hold) - played[OPPONENT])
    table, acts = problem.table(), list(problem.played)
    place = None if plan is None else start(plan)
    most = random.choice([32, 32, random.randint(0, 10)])
    while not table.is_done() and len(acts) < most:
        legal = legal_acts(table, hands[table.turn])
        node = None if plan is None else stated(plan, place)
        if plan is not None and legal[0].side == OWNER and legal[0].card is not None:
            is_stuck = node is None or Act(OWNER, node.card) not in legal
            if is_stuck and random.random() < 0.8:
                break
            if not is_stuck and random.random() < 0.97:
                legal, place = [Act(OWNER, node.card)], node.next
        act = random.choice(legal)
        if act.side == OPPONENT and plan is not None:
            place = place_after(plan, place, GO if act.card is None else act.card.rank)
        table = after(table, act)
        hands[act.side].discard(act.card)
        acts.append(act)
    return Game(deal.hold, deal.throw, tuple(acts))


def random_text(random: Random, command: str) -> str:
    """An input of a command."""
    is_game = command in ("replay", "board", "follow")
    deal = random_deal(random, EARLY + LATE) if is_game and random.random() < 0.7 else late_deal(random)
    if command == "solve":
        return deal.problem.text()
    plan = some_plan(random, deal.problem) if command in ("check", "follow") else None
    text = deal.problem.text() + ("" if plan is None else plan_text(plan))
    return text + (random_game(random, deal, plan).text() if is_game else "")


def early_input(random: Random) -> Input:
    """A problem of which little has been played yet, with a plan or without."""
    problem = random_deal(random, EARLY).problem
    if random.random() < 0.5:
        return Input("solve", problem.text().encode())
    return Input("check", (problem.text() + plan_text(some_plan(random, problem))).encode())


def random_input(random: Random) -> Input:
    """An input and a command: of six inputs two are mangled, and a few are very long or early in the play."""
    command = random.choice(["check", "check", "solve", "solve", "replay", "board", "follow"])
    kind = random.random()
    if kind < 0.04:
        return early_input(random)
    text = random_text(random, command)
    if kind < 0.05:
        return Input(command, padded(random, text))
    if kind < 0.37:
        other = random.choice(["check", "solve", "replay", "board", "follow"])
        return Input(other if random.random() < 0.05 else command, mangled(random, text))
    return Input(command, text.encode())
