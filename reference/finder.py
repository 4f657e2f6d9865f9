"""Finds a sure plan by every card of the owner and every letter of the opponent, with every deal tried at each end."""

from __future__ import annotations

from plan import LETTERS, Node, Place, Plan, Play, See
from play import OWNER, decided
from problem import Problem
from view import Deals, View

NONE = -1  # in place of a place: no plan is sure from here on


class Finder:
    """The sure plans of a problem, from each view. Nodes that are equal are kept once."""

    def __init__(self, problem: Problem) -> None:
        self.deals = Deals(problem)
        self.nodes: list[Node] = []
        self.numbers: dict[Node, int] = {}
        self.places: dict[View, Place] = {}  # of the views that were met

    def plan(self) -> Plan | None:
        """The plan, if there is one."""
        place = self.place_at(self.deals.view())
        return None if place == NONE else numbered(self.nodes, place)

    def place_at(self, view: View) -> Place:
        """The place from which a plan is sure after a view, or NONE."""
        if view not in self.places:
            self.places[view] = self.found(view)
        return self.places[view]

    def found(self, view: View) -> Place:
        """The same, found anew."""
        if view.table.is_done():
            ending = decided(view.table.scores, view.table.target)
            is_sure = ending == "reached" or (ending is None and self.deals.is_sure(view))
            return None if is_sure else NONE
        return self.where_owner_is_asked(view) if view.table.turn == OWNER else self.where_opponent_is_asked(view)

    def where_owner_is_asked(self, view: View) -> Place:
        """The owner plays the first of their cards after which a plan is sure. Equal ranks are tried once."""
        fitting = view.fitting()
        if not fitting:
            return self.place_at(view.after_own(None))
        tried: set[int] = set()
        for card in fitting:
            if card.rank not in tried:
                tried.add(card.rank)
                following = self.place_at(view.after_own(card))
                if following != NONE:
                    return self.kept(Play(card, following))
        return NONE

    def where_opponent_is_asked(self, view: View) -> Place:
        """A plan has to be sure after each letter. It looks only if it must.

        After a letter that leads to the end no card is asked of the owner any more, so that any place will do there.
        """
        places: list[Place] = [None] * len(LETTERS)
        for letter, after in view.following():
            places[letter] = self.place_at(after)
            if places[letter] == NONE:
                return NONE
        led_to = set(places) - {None}
        if not led_to:
            return None
        only = led_to.pop()
        if not led_to and isinstance(self.nodes[only], Play):
            return only
        return self.kept(See(tuple(places)))

    def kept(self, node: Node) -> int:
        """The number of a node. Equal nodes have one number."""
        if node not in self.numbers:
            self.numbers[node] = len(self.nodes)
            self.nodes.append(node)
        return self.numbers[node]


def numbered(nodes: list[Node], first: Place) -> Plan:
    """The plan from a place on. Nodes are numbered backwards as a walk leaves them, branches in their order."""
    left: list[int] = []

    def walk(place: Place) -> None:
        if place is None or place in left:
            return
        node = nodes[place]
        for target in [node.next] if isinstance(node, Play) else node.next:
            walk(target)
        left.append(place)  # no way leads back to it, so it wasn't left meanwhile

    walk(first)
    number: dict[Place, Place] = {place: len(left) - 1 - order for order, place in enumerate(left)}
    number[None] = None
    return [renumbered(nodes[place], number) for place in reversed(left)]


def renumbered(node: Node, number: dict[Place, Place]) -> Node:
    """The node with other numbers for its places."""
    if isinstance(node, Play):
        return Play(node.card, number[node.next])
    return See(tuple(number[place] for place in node.next))
