"""The part of cribplan-graph that draws. Its word is the path of cribplan."""

import re
import signal
import subprocess
import sys
from collections import Counter

from tidy import RANKS, say

STYLES = ("node [shape=box, style=rounded, fontname=Helvetica]", "edge [fontname=Helvetica]")
RUNS = "|".join(RANKS[at : at + long] for long in range(13, 2, -1) for at in range(14 - long)) + "|."


def ranges(letters: str) -> str:
    """The letters of a branch, with three or more ranks in a row as a range."""
    runs = re.findall(RUNS, letters)
    return " ".join("go" if run == "g" else f"{run[0]}-{run[-1]}" if len(run) > 1 else run for run in runs)


def drawn(nodes: list[list[str]]) -> list[str]:
    """The boxes, dots and arrows of a plan. A play node that only another one leads to is in the box of that one."""
    arrows = Counter(word.rpartition(":")[2] for words in nodes for word in words[2:])
    lines, joined = [], set[str]()
    for at, kind, *rest in nodes:
        if kind == "see":
            lines.append(f"{at} [shape=point, width=0.12]")
            for letters, _, target in (branch.partition(":") for branch in rest):
                lines.append(f'{at} -> {target} [label=" {ranges(letters)}"]')
        elif at not in joined:
            *cards, target = rest
            while arrows[target] == 1 and target != "end" and nodes[int(target)][1] == "play":
                joined.add(target)
                cards[len(cards) :] = nodes[int(target)][2:]
                target = cards.pop()
            lines += [f'{at} [label="{" ".join(cards)}"]', *[f"{at} -> {target}"] * (target != "end")]
    return lines or ["end"]


def main() -> int:
    """Asks cribplan about standard input, prints the graph, and returns the exit status."""
    text = sys.stdin.buffer.read()
    said = subprocess.run([sys.argv[1], "check"], input=text, capture_output=True, check=False)
    verdict = said.stdout.decode().partition("\n")[0]
    answer = f"{said.returncode} {verdict}"
    if not re.fullmatch("0 holds|1 fails .*", answer):
        sys.stdout.buffer.write(said.stdout)
        sys.stderr.buffer.write(said.stderr)
        if answer.startswith("2 refused line "):
            return 2
        say(f"cribplan check ended with status {said.returncode} and no answer")
        return 3
    problem, _, plan = text.decode().partition("plan 1\n")
    nodes = [line.split() for line in plan.splitlines()[1:]]
    # The title has the answer, and the lines of the problem but its first, with the turns on the last one.
    title = re.sub(", (dealer|hold|goal) ", r"\\n\1 ", ", ".join([verdict, *problem.splitlines()[1:]]))
    title = re.sub(r", played \d+(?:$|, )", r"\\nplayed ", title).removesuffix(r"\nplayed ")
    print("digraph plan {", f'graph [label="{title}", labelloc=t]', *STYLES, *drawn(nodes), sep="\n    ", end="\n}\n")
    if len(nodes) > 40:
        say(f"this plan has {len(nodes)} nodes; what cribsheet plan prints reads better")
    return 0


signal.signal(signal.SIGINT, signal.SIG_DFL)
sys.exit(main())
