"""What `replay` and `board` print of a game."""

from __future__ import annotations

from game import Report, Shown
from play import OPPONENT, OWNER, PLAYERS
from problem import Problem

TRACKS = ((1, 30), (31, 30), (61, 30), (91, 31))  # the first hole of each line, and how many


def replay_text(report: Report) -> str:
    """The answer of `replay`."""
    lines = [f"play {report.scores[OWNER]} {report.scores[OPPONENT]}"]
    for row in report.shown:
        lines.append(f"{row.name} {PLAYERS[row.side]} {row.points} {row.scores[OWNER]} {row.scores[OPPONENT]}")
    return "".join(f"{line}\n" for line in [*lines, report.ending])


def columns(points: int, scores: tuple[int, int]) -> str:
    """The last three columns of a line."""
    return f"{points:2} {scores[OWNER]:3} {scores[OPPONENT]:3}"


def shown_line(row: Shown) -> str:
    """The line of a hand that was counted."""
    return f"{row.name} {PLAYERS[row.side]:8} {columns(row.points, row.scores)}"


def board_text(problem: Problem, report: Report) -> str:
    """The answer of `board`."""
    lines = ["board 1", "## side     cd ct pt own opp"]
    for number, row in enumerate(report.rows, 1):
        card = "go" if row.act.card is None else row.act.card.text()
        side = PLAYERS[row.act.side]
        lines.append(f"{number:2} {side:8} {card} {row.count:2} {columns(row.points, row.scores)}")
    lines += [shown_line(row) for row in report.shown]
    lines.append(report.ending)
    for side in (OWNER, OPPONENT):
        scores = [problem.scores[side]]
        scores += [row.scores[side] for row in [*report.rows, *report.shown]]
        lines += track_lines(PLAYERS[side], scores)
    return "".join(f"{line}\n" for line in lines)


def track_lines(player: str, scores: list[int]) -> list[str]:
    """A player's holes, with the pegs. The scores are all that they had, one after another."""
    front = scores[-1]
    before = [score for score in scores if score != front]
    holes = ["."] * 122  # the one of number 0 is off the board
    if before:
        holes[before[-1]] = "B"
    holes[front] = "F"
    return [f"{player:8} {first:3} {''.join(holes[first : first + number])}" for first, number in TRACKS]
