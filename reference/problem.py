"""Problems: what the owner of a plan knows, and what they want."""

from __future__ import annotations

from dataclasses import dataclass

from cards import Card, cards_text, value_of
from play import LAST_HOLE, OPPONENT, OWNER, PLAYERS, Act, Table
from reading import Lines

MOST_SCORE = 120


@dataclass(frozen=True)
class Problem:
    """The sections `problem 1` and `problem 2`. Turns played already are for version 2 alone."""

    version: int
    dealer: int
    scores: tuple[int, int]
    starter: Card
    hold: tuple[Card, ...]
    throw: tuple[Card, ...]
    goal: str
    played: tuple[Act, ...] = ()

    def target(self) -> int:
        """The hole that the owner wants to reach."""
        words = self.goal.split()
        return self.scores[OWNER] + int(words[1]) if words[0] == "holes" else LAST_HOLE

    def is_stop(self) -> bool:
        """Whether it is enough that the opponent doesn't reach the last hole."""
        return self.goal == "stop"

    def known(self) -> set[Card]:
        """The seven cards that the owner has seen when the play begins."""
        return {self.starter, *self.hold, *self.throw}

    def first_table(self) -> Table:
        """The table before the first lead."""
        return Table.first(self.dealer, self.scores, self.target())

    def table(self) -> Table:
        """The table after the turns that are played already."""
        table = self.first_table()
        for act in self.played:
            table, _ = table.after(None if act.card is None else act.card.rank)
        return table

    def text(self) -> str:
        """The section."""
        lines = [
            f"problem {self.version}",
            f"dealer {PLAYERS[self.dealer]}",
            f"score {self.scores[OWNER]} {self.scores[OPPONENT]}",
            f"starter {self.starter.text()}",
            f"hold {cards_text(self.hold)}",
            f"throw {cards_text(self.throw)}",
            f"goal {self.goal}",
        ]
        if self.version == 2:
            lines += [f"played {len(self.played)}", *(act.text() for act in self.played)]
        return "".join(f"{line}\n" for line in lines)


def read_problem(lines: Lines) -> Problem:
    """Reads the section."""
    version = lines.header("problem", (1, 2))
    dealer = lines.after("dealer", 1)[0]
    if dealer not in PLAYERS:
        lines.refuse(4)
    scores = tuple(read_score(lines, word) for word in lines.after("score", 2))
    cards: list[Card] = []
    for keyword, number in (("starter", 1), ("hold", 4), ("throw", 2)):
        for word in lines.after(keyword, number):
            card = lines.card(word)
            if card in cards:
                lines.refuse(20)
            cards.append(card)
    goal = read_goal(lines, version, scores[OWNER])
    problem = Problem(
        version=version,
        dealer=PLAYERS.index(dealer),
        scores=(scores[0], scores[1]),
        starter=cards[0],
        hold=tuple(cards[1:5]),
        throw=tuple(cards[5:7]),
        goal=goal,
    )
    return read_played(lines, problem) if version == 2 else problem


def read_score(lines: Lines, word: str) -> int:
    """A score at the first lead."""
    score = lines.number(word)
    if score > MOST_SCORE:
        lines.refuse(21)
    return score


def read_goal(lines: Lines, version: int, score: int) -> str:
    """The words of a goal."""
    words = lines.words()
    if words == ["goal", "win"] or (words == ["goal", "stop"] and version == 2):
        return words[1]
    if len(words) != 3 or words[:2] != ["goal", "holes"]:
        lines.refuse(4)
    holes = lines.number(words[2])
    if not 1 <= holes <= LAST_HOLE - score:
        lines.refuse(22)
    return f"holes {holes}"


def read_played(lines: Lines, problem: Problem) -> Problem:
    """The problem with the turns that are played already. They have to be honest as far as the owner can see."""
    table = problem.first_table()
    hand = set(problem.hold)
    seen = problem.known()
    least = 1  # value of a card that the opponent still holds, by the gos that they said
    played: list[Act] = []
    for _ in range(lines.number_of_acts("played")):
        act = lines.act()
        if act.side == OPPONENT:
            if act.card in seen:
                lines.refuse(20)
            refuse_opponents_turn(lines, table, act, least)
            least = max(least, 32 - table.count()) if act.card is None else least
            seen |= {act.card} - {None}
        else:
            refuse_owners_turn(lines, table, act, hand)
            hand.discard(act.card)
        table, _ = table.after(None if act.card is None else act.card.rank)
        if table.is_done():
            lines.refuse(24)
        played.append(act)
    return Problem(**{**vars(problem), "played": tuple(played)})


def refuse_owners_turn(lines: Lines, table: Table, act: Act, hand: set[Card]) -> None:
    """Refuses a turn of the owner that breaks the rules."""
    if table.turn != OWNER:
        lines.refuse(44)
    if act.card is None:
        if any(table.fits(card.rank) for card in hand):
            lines.refuse(43)
    elif act.card not in hand:
        lines.refuse(41)
    elif not table.fits(act.card.rank):
        lines.refuse(42)


def refuse_opponents_turn(lines: Lines, table: Table, act: Act, least: int) -> None:
    """Refuses a turn of the opponent that breaks the rules, whatever they hold."""
    if table.turn != OPPONENT:
        lines.refuse(44)
    if act.card is None:
        if table.count() < 22:
            lines.refuse(23)
    elif not table.fits(act.card.rank):
        lines.refuse(42)
    elif value_of(act.card.rank) < least:
        lines.refuse(23)
