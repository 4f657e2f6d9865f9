"""Plans: nodes that state a card of the owner's, and nodes that look at what the opponent shows."""

from __future__ import annotations

from typing import NamedTuple

from cards import RANKS, Card
from reading import Lines

LETTERS = RANKS + "g"  # what the opponent shows
GO = LETTERS.index("g")
MOST_NODES = 65_535

Place = int | None  # the number of a node, or None for the end


class Play(NamedTuple):
    """A node that states a card, and the place after it."""

    card: Card
    next: Place


class See(NamedTuple):
    """A node that looks: the place after each letter."""

    next: tuple[Place, ...]


Node = Play | See
Plan = list[Node]


def start(plan: Plan) -> Place:
    """The first place."""
    return 0 if plan else None


def stated(plan: Plan, place: Place) -> Play | None:
    """The node that states a card at a place, if it does."""
    node = None if place is None else plan[place]
    return node if isinstance(node, Play) else None


def place_after(plan: Plan, place: Place, letter: int) -> Place:
    """The place after the opponent has shown a letter."""
    node = None if place is None else plan[place]
    return node.next[letter] if isinstance(node, See) else place


def node_text(node: Node) -> str:
    """The words of a node after its number. Letters with one target are one branch."""
    if isinstance(node, Play):
        return f"play {node.card.text()} {'end' if node.next is None else node.next}"
    branches: dict[int, str] = {}
    for letter, target in zip(LETTERS, node.next):
        if target is not None:
            branches[target] = branches.get(target, "") + letter
    return " ".join(["see", *(f"{letters}:{target}" for target, letters in branches.items())])


def plan_text(plan: Plan) -> str:
    """The section."""
    nodes = (f"{number} {node_text(node)}\n" for number, node in enumerate(plan))
    return f"plan 1\nnodes {len(plan)}\n{''.join(nodes)}"


def read_plan(lines: Lines) -> Plan:
    """Reads the section."""
    lines.header("plan", (1,))
    nodes = lines.number(lines.after("nodes", 1)[0])
    if nodes > MOST_NODES:
        lines.refuse(32)
    return [read_node(lines, number, nodes) for number in range(nodes)]


def read_node(lines: Lines, number: int, nodes: int) -> Node:
    """The node of the next line."""
    words = lines.words()
    is_play = words[1:2] == ["play"] and len(words) == 4
    if not is_play and words[1:2] != ["see"]:
        lines.refuse(4)
    if lines.number(words[0]) != number:
        lines.refuse(4)
    if not is_play:
        return See(read_branches(lines, words[2:], number, nodes))
    card = lines.card(words[2])
    return Play(card, None if words[3] == "end" else read_target(lines, words[3], number, nodes))


def read_target(lines: Lines, word: str, number: int, nodes: int) -> int:
    """The number of a later node."""
    target = lines.number(word)
    if not number < target < nodes:
        lines.refuse(30)
    return target


def read_branches(lines: Lines, words: list[str], number: int, nodes: int) -> tuple[Place, ...]:
    """The places after a look."""
    places: list[Place] = [None] * len(LETTERS)
    first_before = -1  # the first letter of the branch before
    for word in words:
        if word.count(":") != 1:
            lines.refuse(4)
        letters, target = word.split(":")
        shown = [LETTERS.find(letter) for letter in letters]
        is_rising = -1 not in shown and all(one < other for one, other in zip(shown, shown[1:]))
        if not shown or not is_rising or any(places[letter] is not None for letter in shown):
            lines.refuse(31)
        if shown[0] < first_before:
            lines.refuse(31)
        first_before = shown[0]
        if target == "end":
            lines.refuse(30)
        later = read_target(lines, target, number, nodes)
        if later in places:
            lines.refuse(31)
        for letter in shown:
            places[letter] = later
    return tuple(places)
