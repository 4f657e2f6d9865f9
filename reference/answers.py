"""The answers of the five commands: the bytes and the exit status that answer an input."""

from __future__ import annotations

from typing import NamedTuple

from board import board_text, replay_text
from checker import Checker
from finder import Finder
from game import Game, Judge, read_game
from plan import MOST_NODES, Plan, plan_text, read_plan
from problem import Problem, read_problem
from reading import Lines, Refused

SECTIONS = {
    "check": ("problem", "plan"),
    "solve": ("problem",),
    "replay": ("problem", "game"),
    "board": ("problem", "game"),
    "follow": ("problem", "plan", "game"),
}
READERS = {"problem": read_problem, "plan": read_plan, "game": read_game}


class Answer(NamedTuple):
    """What is written, and the exit status."""

    text: str
    status: int


def answer(command: str, data: bytes) -> Answer:
    """The answer of a command to an input."""
    try:
        lines = Lines(data)
        sections = {name: READERS[name](lines) for name in SECTIONS[command]}
        lines.end()
        return ANSWERS[command](**sections)
    except Refused as refused:
        return Answer(f"refused line {refused.line}: {refused.number}\n", 2)


def check(problem: Problem, plan: Plan) -> Answer:
    """Whether a plan is sure."""
    failure = Checker(problem, plan).first_failure()
    if failure is None:
        return Answer("holds\n", 0)
    return Answer(f"fails {failure.ending}\n{failure.game.text()}", 1)


def solve(problem: Problem) -> Answer:
    """A sure plan."""
    plan = Finder(problem).plan()
    if plan is None:
        return Answer("none\n", 1)
    return Answer("fault 50\n", 3) if len(plan) > MOST_NODES else Answer(plan_text(plan), 0)


def replay(problem: Problem, game: Game) -> Answer:
    """How a game ends."""
    return Answer(replay_text(Judge(problem, None, game).report()), 0)


def board(problem: Problem, game: Game) -> Answer:
    """The same, with every act and the pegs."""
    return Answer(board_text(problem, Judge(problem, None, game).report()), 0)


def follow(problem: Problem, plan: Plan, game: Game) -> Answer:
    """How a game stands under a plan."""
    ending = Judge(problem, plan, game).report().ending
    return Answer(f"{ending}\n", 0 if ending == "reached" else 1)


ANSWERS = {"check": check, "solve": solve, "replay": replay, "board": board, "follow": follow}
