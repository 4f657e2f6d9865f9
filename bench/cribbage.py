"""Cribbage for the benchmark: the cards, the play and the texts of the reference.

The modules of `../reference` know nothing of the program that is measured.
"""

from __future__ import annotations

import sys
from pathlib import Path

sys.dont_write_bytecode = True
sys.path.append(str(Path(__file__).resolve().parent.parent / "reference"))

from cards import DECK, Card, value_of  # noqa: E402
from game import Game  # noqa: E402
from inputs import Deal, after, edge_of, ladder, legal_acts, random_cards, random_turns  # noqa: E402
from plan import GO, LETTERS, Node, Place, Plan, Play, See  # noqa: E402
from plan import place_after, plan_text, read_plan, start, stated  # noqa: E402
from play import OPPONENT, OWNER, PLAYERS, Table, decided  # noqa: E402
from problem import Problem, read_problem  # noqa: E402
from reading import Lines  # noqa: E402
