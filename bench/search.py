"""A search for the dearest inputs: random edges of each dealer and goal, for a given time."""

from __future__ import annotations

import itertools
import os
import tempfile
import threading
import time
from concurrent.futures import ThreadPoolExecutor
from pathlib import Path
from random import Random
from typing import NamedTuple

from cribbage import Lines, Problem, plan_text, read_plan
from edges import KINDS, Kind, edge, near, random_problem
from measure import Cost, Program, Task
from tables import Table, Value

KEPT = 10  # of each dealer and goal


class Run(NamedTuple):
    """One run that was timed: the problem, the input, and the seconds of processor time."""

    seconds: float
    command: str
    problem: Problem
    text: str


class Dear(NamedTuple):
    """One of the dearest: measured again, with its instructions where they can be counted."""

    run: Run
    cost: Cost
    instructions: int | None


class Search:
    """The dearest inputs that were met so far: of each edge the dearest run."""

    def __init__(self, program: Program, seed: int, is_near: bool) -> None:
        self.program = program
        self.seed = seed
        self.is_near = is_near  # whether every second edge is near one of the dearest
        self.dearest: dict[Kind, list[Run]] = {kind: [] for kind in KINDS}
        self.edges = 0
        self.runs = 0
        self._numbers = itertools.count()
        self._lock = threading.Lock()

    def look(self, seconds: float) -> None:
        """Looks for so long by the clock, on all cores."""
        ends = time.monotonic() + seconds
        cores = os.cpu_count() or 1
        with ThreadPoolExecutor(cores) as pool:
            for done in [pool.submit(self._look_until, ends) for _ in range(cores)]:
                done.result()

    def _look_until(self, ends: float) -> None:
        """Tries one edge after another. Each has a seed of its own."""
        while time.monotonic() < ends:
            with self._lock:
                number = next(self._numbers)
                kind = KINDS[number % len(KINDS)]
                dear = [run.problem for run in self.dearest[kind]]
            random = Random(f"{self.seed} {number}")
            is_near = self.is_near and dear and number // len(KINDS) % 2 == 1
            problem = near(random, random.choice(dear)) if is_near else random_problem(random, kind)
            runs = self._runs_of(problem)
            with self._lock:
                self.edges += 1
                self.runs += len(runs)
                best = [*self.dearest[kind], max(runs, key=lambda run: run.seconds)] if runs else self.dearest[kind]
                self.dearest[kind] = sorted(best, key=lambda run: -run.seconds)[:KEPT]

    def _runs_of(self, problem: Problem) -> list[Run]:
        """All runs that the bisection of a problem's edge makes, and a check of the plan that was found."""
        runs: list[Run] = []
        plans: dict[Problem, str] = {}

        def has_plan(other: Problem) -> bool:
            seconds, answer = self.program.run("solve", other.text())
            runs.append(Run(seconds, "solve", other, other.text()))
            if answer.startswith("plan"):
                plans[other] = plan_text(read_plan(Lines(answer.encode())))
            return other in plans

        last = edge(problem, has_plan).last
        if last is not None:
            text = last.text() + plans[last]
            runs.append(Run(self.program.run("check", text)[0], "check", last, text))
        return runs

    def measured(self, kind: Kind) -> list[Dear]:
        """The dearest of a kind, measured again."""
        found: list[Dear] = []
        for run in self.dearest[kind]:
            with tempfile.TemporaryDirectory() as folder:
                task = Task(run.command, Path(folder) / "input.txt")
                task.file.write_text(run.text)
                counted = self.program.instructions(task) if self.program.has_instructions else None
                found.append(Dear(run, self.program.cost(task), counted))
        return sorted(found, key=lambda dear: -dear.cost.seconds)

    def keep(self, folder: Path) -> None:
        """Writes the inputs into a folder."""
        folder.mkdir(parents=True, exist_ok=True)
        for kind, runs in self.dearest.items():
            for place, run in enumerate(runs):
                (folder / f"edge-{run.command}-{kind.name()}-{place}.txt").write_text(run.text)


def on_one_line(run: Run) -> str:
    """The problem without line ends."""
    return "; ".join(run.problem.text().splitlines())


def dear_row(dear: Dear) -> list[Value]:
    """The figures of one of them."""
    answer = dear.cost.answer.split(" ")[0]
    instructions = None if dear.instructions is None else dear.instructions / 1_000_000
    memory = None if dear.cost.memory is None else dear.cost.memory / 1024
    return [f"{dear.run.command}: {answer}", 1000 * dear.cost.seconds, instructions, memory, on_one_line(dear.run)]


HEADS = ["Answer", "Time, ms", "Instructions, M", "Memory, MB", "Problem; a check has the plan that solve finds"]


def tables_of(found: dict[Kind, list[Dear]]) -> list[Table]:
    """The dearest of each dealer and goal, the very dearest first."""
    remark = "The least time of some runs."
    return [
        Table(f"Dealer and goal: {kind.name()}", remark, HEADS, [dear_row(dear) for dear in dears])
        for kind, dears in found.items()
    ]


def first_of_each(found: dict[Kind, list[Dear]], search: Search, seconds: float) -> Table:
    """The very dearest of each dealer and goal."""
    rows: list[list[Value]] = []
    for kind, dears in found.items():
        if dears:
            rows.append([kind.name(), *dear_row(dears[0])])
    command = f"bench/run --search {seconds:.0f} --seed {search.seed}{' --near' if search.is_near else ''}"
    remark = f"`{command}` tried {search.edges:,} edges in {search.runs:,} runs. The dealer stands before the goal."
    return Table("The dearest that a search found", remark, ["Kind", *HEADS], rows)
