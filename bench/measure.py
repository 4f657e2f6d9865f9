"""What one run of a program costs: processor time, peak memory, and instructions."""

from __future__ import annotations

import os
import re
import shutil
import subprocess
import tempfile
import time
from dataclasses import dataclass
from pathlib import Path
from typing import IO

CALLGRIND = ["valgrind", "--tool=callgrind", "--callgrind-out-file=/dev/null"]
COLLECTED = re.compile(r"Collected : (\d+)")


@dataclass(frozen=True)
class Task:
    """A command of the program, and the file that it reads."""

    command: str
    file: Path

    @property
    def name(self) -> str:
        """The name of the file without its ending."""
        return self.file.stem


@dataclass(frozen=True)
class Cost:
    """A run: its processor time in seconds, its peak memory in kB where that could be measured, and its answer."""

    task: Task
    seconds: float
    memory: int | None
    answer: str


class Program:
    """A program that is started afresh for each run."""

    def __init__(self, path: Path, repeats: int, limit: int | None = None) -> None:
        self.path = str(path.resolve())
        self.repeats = repeats
        # A limit is one of address space, in kB.
        self.words = ["sh", "-c", 'ulimit -v "$0"; exec "$@"', str(limit), self.path] if limit else [self.path]
        self.has_memory = shutil.which("time") is not None
        self.has_instructions = shutil.which("valgrind") is not None

    def _once(self, command: str, source: IO[bytes]) -> tuple[float, str]:
        """The user and system time of one run, and what it wrote."""
        with tempfile.TemporaryFile() as answer:
            process = subprocess.Popen([*self.words, command], stdin=source, stdout=answer)
            _, status, usage = os.wait4(process.pid, 0)
            process.returncode = os.waitstatus_to_exitcode(status)
            answer.seek(0)
            written = answer.read().decode()
        return usage.ru_utime + usage.ru_stime, written

    def run(self, command: str, text: str) -> tuple[float, str]:
        """The time of one run over a text, and what it wrote."""
        with tempfile.TemporaryFile() as source:
            source.write(text.encode())
            source.seek(0)
            return self._once(command, source)

    def _once_on(self, task: Task) -> tuple[float, str]:
        """The time of one run, and the first line of what it wrote."""
        with task.file.open("rb") as source:
            seconds, written = self._once(task.command, source)
        return seconds, written.partition("\n")[0]

    def _memory(self, task: Task) -> int | None:
        """The peak memory of one run in kB. A parent of little memory starts it, since a child reports its parent's."""
        if not self.has_memory:
            return None
        with task.file.open("rb") as source, tempfile.NamedTemporaryFile("r") as told:
            words = ["time", "--quiet", "-f", "%M", "-o", told.name, *self.words, task.command]
            subprocess.run(words, stdin=source, stdout=subprocess.DEVNULL, check=False)
            return int(told.read())

    def cost(self, task: Task) -> Cost:
        """The least time of some runs, and the memory of one more."""
        runs = [self._once_on(task) for _ in range(self.repeats)]
        return Cost(task, min(seconds for seconds, _ in runs), self._memory(task), runs[0][1])

    def instructions(self, task: Task) -> int:
        """The instructions of one whole run, start-up included."""
        with task.file.open("rb") as source:
            words = [*CALLGRIND, *self.words, task.command]
            done = subprocess.run(words, stdin=source, capture_output=True, text=True, check=False)
        found = COLLECTED.search(done.stderr)
        if found is None:
            raise SystemExit(f"valgrind counted nothing:\n{done.stderr}")
        return int(found[1])

    def limited(self, limit: int | None) -> Program:
        """The same program with so much address space in kB."""
        return Program(Path(self.path), self.repeats, limit)

    def at_once(self, tasks: list[Task], processes: int) -> float:
        """The seconds by the clock for all of some tasks, with so many processes at a time."""
        line = '"$0" "$1" <"$2" >/dev/null || :'
        words = ["xargs", "-0", "-n", "2", "-P", str(processes), "sh", "-c", line, self.path]
        pairs = "".join(f"{task.command}\0{task.file}\0" for task in tasks)
        began = time.perf_counter()
        subprocess.run(words, input=pairs, text=True, check=True)
        return time.perf_counter() - began
