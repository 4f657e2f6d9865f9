"""Games: what the opponent really has, and the acts. How they are judged, and what the deal is after them."""

from __future__ import annotations

from typing import NamedTuple

from cards import Card, cards_text, value_of
from play import OPPONENT, OWNER, Act, Table, decided
from plan import GO, Place, Plan, place_after, start, stated
from problem import Problem
from reading import Lines, Refused
from show import counted, points_of


class Game(NamedTuple):
    """The section `game 1`."""

    hold: tuple[Card, ...]
    throw: tuple[Card, ...]
    acts: tuple[Act, ...]
    line: int = 1  # where the section begins in its input

    def text(self) -> str:
        """The section."""
        lines = ["game 1", f"hold {cards_text(self.hold)}", f"throw {cards_text(self.throw)}"]
        lines += [f"acts {len(self.acts)}", *(act.text() for act in self.acts)]
        return "".join(f"{line}\n" for line in lines)


def read_game(lines: Lines) -> Game:
    """Reads the section."""
    lines.header("game", (1,))
    line = lines.line
    hold = tuple(lines.card(word) for word in lines.after("hold", 4))
    throw = tuple(lines.card(word) for word in lines.after("throw", 2))
    acts = tuple(lines.act() for _ in range(lines.number_of_acts("acts")))
    return Game(hold, throw, acts, line)


class Row(NamedTuple):
    """An act: the count with its card, its points with those of the silent gos after it, and the scores then."""

    act: Act
    count: int
    points: int
    scores: tuple[int, int]


class Shown(NamedTuple):
    """A hand that was counted."""

    name: str
    side: int
    points: int
    scores: tuple[int, int]


class Report(NamedTuple):
    """How a game ends."""

    rows: list[Row]
    shown: list[Shown]
    scores: tuple[int, int]  # when the play ended, or where it stands
    ending: str


def refuse_cards(problem: Problem, game: Game) -> None:
    """Refuses the opponent's cards where one is known, or was there before."""
    seen = problem.known()
    for place, card in enumerate((*game.hold, *game.throw)):
        if card in seen:
            raise Refused(game.line + (1 if place < len(game.hold) else 2), 40)
        seen.add(card)


def fault_of(table: Table, act: Act, hand: set[Card], is_stated: bool) -> int | None:
    """Why an act is refused, if it is."""
    if table.is_done():
        return 45
    if act.side != table.turn:
        return 44
    if act.card is None:
        return 43 if any(table.fits(card.rank) for card in hand) else None
    if act.side == OWNER and not is_stated:
        return 46
    if act.card not in hand:
        return 41
    return None if table.fits(act.card.rank) else 42


class Judge:
    """A game that is gone through act by act, with a plan or without."""

    def __init__(self, problem: Problem, plan: Plan | None, game: Game) -> None:
        refuse_cards(problem, game)
        self.problem = problem
        self.plan = plan
        self.game = game
        self.table = problem.first_table()
        self.hands = (set(problem.hold), set(game.hold))
        self.place: Place = None if plan is None else start(plan)
        self.rows: list[Row] = []
        for number, act in enumerate(game.acts):
            self.take(number, act)
        if len(game.acts) < len(problem.played):
            raise Refused(game.line + 3, 47)

    def take(self, number: int, act: Act) -> None:
        """Goes on by one act, or refuses it."""
        line = self.game.line + 4 + number
        is_begun = number >= len(self.problem.played)
        if not is_begun and act != self.problem.played[number]:
            raise Refused(line, 47)
        plan = self.plan if is_begun else None
        node = None if plan is None else stated(plan, self.place)
        is_stated = plan is None or (node is not None and node.card == act.card)
        fault = fault_of(self.table, act, self.hands[act.side], is_stated)
        if fault is not None:
            raise Refused(line, fault)
        if plan is not None:
            self.place = self.place_after(plan, act)
        rank = None if act.card is None else act.card.rank
        count = self.table.count() + (0 if rank is None else value_of(rank))
        self.table, points = self.table.after(rank)
        self.hands[act.side].discard(act.card)
        self.rows.append(Row(act, count, points, self.table.scores))

    def place_after(self, plan: Plan, act: Act) -> Place:
        """The place of the plan after an act that is accepted."""
        if act.side == OPPONENT:
            return place_after(plan, self.place, GO if act.card is None else act.card.rank)
        return self.place if act.card is None else plan[self.place].next

    def is_stuck(self) -> bool:
        """Whether the owner has to choose a card, and the plan states none that they hold and that fits."""
        fitting = {card for card in self.hands[OWNER] if self.table.fits(card.rank)}
        if self.plan is None or self.table.turn != OWNER or not fitting:
            return False
        node = stated(self.plan, self.place)
        return node is None or node.card not in fitting

    def report(self) -> Report:
        """How the game ends."""
        table = self.table
        if not table.is_done():
            return Report(self.rows, [], table.scores, "stuck" if self.is_stuck() else "open")
        ending = decided(table.scores, table.target)
        if ending is not None:
            return Report(self.rows, [], table.scores, ending)
        hands = show_of(self.problem, self.game.hold, self.game.throw)
        after, ending = counted(
            table.scores, table.target, self.problem.is_stop(), [(side, points) for _, side, points in hands]
        )
        shown = [Shown(*hand, scores) for hand, scores in zip(hands, after)]
        return Report(self.rows, shown, table.scores, ending)


def show_of(problem: Problem, hold: tuple[Card, ...], throw: tuple[Card, ...]) -> list[tuple[str, int, int]]:
    """The hands in the order of counting: the pone's, the dealer's, the crib; each with its side and points."""
    dealer, starter = problem.dealer, problem.starter
    hands = (problem.hold, hold)
    points = [points_of(hands[side], starter, is_crib=False) for side in (OWNER, OPPONENT)]
    crib = points_of((*problem.throw, *throw), starter, is_crib=True)
    pone = 1 - dealer
    return [("hand", pone, points[pone]), ("hand", dealer, points[dealer]), ("crib", dealer, crib)]
