"""Why no plan is sure, in words: what `cribsheet why` prints, with a row for each game that refutes every player."""

from __future__ import annotations

from itertools import groupby
from typing import NamedTuple

from cards import JACK, RANKS, Card
from game import Game, Judge, Shown
from play import OPPONENT, OWNER, Act
from problem import Problem
from show import flush

SURE = "Some plan is sure: cribplan solve prints one.\n"
SUITS = "No plan is sure, since a plan sees no suits. But a player who does is sure.\n"
HEAD = """\
No player can be sure, whatever they look at. Whatever you play, some hand and
some play of theirs beat it:

"""
END = """
Each row is a play to its end, what they held (and threw, if the crib counts),
and the scores, yours first.
"""
SHIFT = 4  # columns between two columns, and before the rows below another one


class Play(NamedTuple):
    """A game after the turns of the problem: what was shown, what they held, and the scores at the end."""

    turns: tuple[Act, ...]
    held: str
    scores: tuple[int, int]

    def shows(self) -> tuple[int, ...]:
        """The ranks that the opponent shows."""
        return tuple(turn.card.rank for turn in self.turns if turn.side == OPPONENT and turn.card is not None)

    def rest(self) -> Play:
        """The play after its first turn."""
        return self._replace(turns=self.turns[1:])


class Line(NamedTuple):
    """A line of the rows, and its two columns, if it has them."""

    text: str
    held: str = ""
    scores: str = ""


def four_text(four: tuple[Card, ...], starter: Card, is_crib: bool, is_counted: bool, others: tuple[Card, ...]) -> str:
    """The ranks of some cards of a hand or a crib, and the suits that count in it."""
    has_flush = is_counted and flush((*others, *four), starter, is_crib) > 0
    jack = Card(JACK, starter.suit)
    return " ".join(card.text() if has_flush or (is_counted and card == jack) else RANKS[card.rank] for card in four)


def held_text(problem: Problem, game: Game, shown: list[Shown]) -> str:
    """What the opponent held, and what they threw if the crib was counted."""
    is_counted = any(row.name == "hand" and row.side == OPPONENT for row in shown)
    held = four_text(game.hold, problem.starter, False, is_counted, ())
    if all(row.name != "crib" for row in shown):
        return held
    return f"{held} ({four_text(game.throw, problem.starter, True, True, problem.throw)})"


def play_of(problem: Problem, game: Game) -> Play:
    """The play of a game."""
    report = Judge(problem, None, game).report()
    scores = report.shown[-1].scores if report.shown else report.scores
    return Play(game.acts[len(problem.played) :], held_text(problem, game, report.shown), scores)


def turn_text(problem: Problem, turn: Act) -> str:
    """What a turn is called. A card of the owner is any of its rank, if they have more of it."""
    if turn.card is None:
        return "you go" if turn.side == OWNER else "they go"
    if turn.side == OPPONENT:
        return f"they {RANKS[turn.card.rank]}"
    is_single = sum(card.rank == turn.card.rank for card in problem.hold) == 1
    return turn.card.text() if is_single else RANKS[turn.card.rank]


def range_text(scores: list[int]) -> str:
    """The least and the greatest of some scores of one side."""
    return f"{min(scores)}" if min(scores) == max(scores) else f"{min(scores)}-{max(scores)}"


def row_of(text: str, plays: list[Play]) -> Line:
    """The row of some plays."""
    scores = [range_text([play.scores[side] for play in plays]) for side in (OWNER, OPPONENT)]
    return Line(text, plays[0].held, " ".join(scores))


def lines_of(problem: Problem, plays: list[Play], said: list[str], shift: str) -> list[Line]:
    """The lines of plays that are alike so far; some turns were named on this line."""

    def alike(turn: Act) -> str:
        return turn_text(problem, turn)

    firsts = [alike(play.turns[0]) if play.turns else "" for play in plays]
    first = plays[0]
    if all([*map(alike, play.turns)] == [*map(alike, first.turns)] and play.held == first.held for play in plays):
        return [row_of(shift + ", ".join([*said, *map(alike, first.turns)]), plays)]
    if len({*firsts}) == 1:
        return lines_of(problem, [play.rest() for play in plays], [*said, firsts[0]], shift)
    if len({(play.shows(), play.held) for play in plays}) == 1:
        answer = " ".join(["they", *(RANKS[rank] for rank in first.shows())]) if first.shows() else ""
        whatever = ", ".join(filter(None, ["whatever you play", answer]))
        return [row_of(shift + ", ".join([*said, f"then {whatever}" if said else whatever]), plays)]
    head = [Line(shift + ", ".join([*said, "then"]))] if said else []
    further = shift + " " * SHIFT if said else shift
    runs = [[play for _, play in run] for _, run in groupby(zip(firsts, plays), lambda pair: pair[0])]
    return head + [line for run in runs for line in lines_of(problem, run, [], further)]


def suits_text(ranks: list[str]) -> str:
    """The answer of `cribsheet why` where suits decide, after these ranks of the opponent's next card."""
    return SUITS + "".join(f"Look at the suit if they show one of these next: {letters}\n" for letters in ranks)


def why_text(problem: Problem, games: tuple[Game, ...]) -> str:
    """The answer of `cribsheet why`."""
    plays: dict[tuple, Play] = {}
    for play in [play_of(problem, game) for game in games]:
        named = [turn_text(problem, turn) for turn in play.turns]
        plays.setdefault((*named, play.held, play.scores), play)
    lines = lines_of(problem, [*plays.values()], [], "")
    widest = max(len(line.text) for line in lines if line.scores) + SHIFT
    wide = max(len(line.held) for line in lines) + SHIFT
    rows = [
        f"{line.text:{widest}}{line.held:{wide}}{line.scores}" if line.scores else line.text for line in lines
    ]
    return HEAD + "".join(f"{row}\n" for row in rows) + END
