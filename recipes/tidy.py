"""The part of cribplan-tidy that reads the text which the recipe has kept, on standard input, and prints it mended."""

import os
import re
import sys
import unicodedata
from collections import Counter
from contextlib import suppress
from graphlib import CycleError, TopologicalSorter

RANKS = "A23456789TJQK"
LETTERS, CARD = f"{RANKS}g", f"[{RANKS}][CDHS]"
NUMBERS = dict(zip("ACE TWO THREE FOUR FIVE SIX SEVEN EIGHT NINE TEN JACK QUEEN KING DEUCE TREY".split(), f"{RANKS}23"))
KEYWORDS = "problem dealer owner opponent score starter hold throw goal win holes stop played own opp go".split()
KEYWORDS += "game acts plan nodes turns play see end".split()
# The marks of mails and of lists.
MARKS = rf"(?i)^ *(?:(?:[>|•·$] ?)+|- (?=\w)|node (?=\d)|\d+[.):]?[ |]+(?=(?!holes)(?:{'|'.join(KEYWORDS[:-3])})\b))"
ARROW = r"\s*(?:[-=]>|=|[→⇒])\s*"
NEXT = rf"(?:{ARROW}|,? (?:then|go ?to) (?=\S)|, *)"  # behind the card of a node
BRANCH = rf"(?:(?:10|[{RANKS}])(?:-(?:10|[{RANKS}]))?|GO?)+"
COUNTED, ACT = ("played", "acts", "nodes", "turns"), rf"(?:own|opp) (?:{CARD}|go)"
TABLE = re.compile(r"([,;\t|])(?:[^,;\t|]*\1){5}")
OTHERS = "hand=hold keep=hold discard=throw crib=throw cut=starter upcard=starter pass=go passes=go goes=go"
MEANT = dict(zip(KEYWORDS, KEYWORDS)) | dict(pair.split("=") for pair in OTHERS.split())
END = -1  # the place after a plan
MARK = "\ud800"  # no text has it; it is before the place of a node without a name, and around a place in a note
SHEET = re.compile(r" *(?:You (?:are the \w+ at \d|hold \w\w |want )|This plan is (?:(?:not )?sure|long)[.:] )")
ROWS = re.compile(r"^ *(?:This plan is (?:sure|long)[^\n]*|The plan:)\n(.*?)(?=^ *Play a row|\Z)", re.M | re.S)
ROW = r"(?i)( *)(?:(\[\d+\]) |([^:]*?) *: )?((?:\b\w{2,3}\b,? ?)*)(?:(?:, then )?(?:(look):?|see (\[\d+\])|end))?"


def say(text: str, head: str = os.environ.get("name", "") + ": ") -> None:
    """Prints a message of a recipe on standard error."""
    with suppress(OSError):
        os.write(2, f"{head}{text}\n".encode(errors="surrogateescape"))


class Signs(dict[int, str]):
    """What is typed for a sign: its ASCII, nothing for quotes and for what nobody sees, or the sign itself."""

    def __missing__(self, code: int) -> str:
        sign = chr(code)
        name, kind = unicodedata.name(sign, ""), unicodedata.category(sign)
        suit = re.search(r"(?<!\w)([CDHS])(?:LUB|IAMOND|EART|PADE)\b", name)
        made = suit[1] if suit else f" {name[13:]} " if name.startswith("PLAYING CARD ") else sign
        made = "-" if kind == "Pd" or sign == "−" else " " if sign.isspace() else made
        return self.setdefault(code, "" if kind in ("Cf", "Mn", "Me", "Pi", "Pf") or sign in "\"'`*„‚" else made)


SIGNS = Signs()


def decoded(data: bytes) -> str:
    """A text in UTF-8 or UTF-16, without the sign of its order. A line end of old Macs becomes that of Unix."""
    is_wide = data[:2] in (b"\xff\xfe", b"\xfe\xff")
    text = data.decode("utf-16", "backslashreplace") if is_wide else data.decode("utf-8-sig", "surrogateescape")
    return re.sub("\r(?!\n)", "\n", text)


def plain(text: str) -> str:
    """A line in signs of ASCII, with `5 of spades` as a card, and without marks of mails, of lists and of its end."""
    text = re.sub(r"(?<= )[*?](?= ?:)", "else", text)  # the other branches of a node
    typed = re.sub(MARKS, "", unicodedata.normalize("NFKC", text).translate(SIGNS))
    named = rf"(?i)\b(10|{'|'.join([*NUMBERS, *RANKS])})(?: of)?[: ]?([CDHS])(?:lub|iamond|eart|pade)s?\b"
    return re.sub(named, lambda card: NUMBERS.get(card[1].upper(), card[1]) + card[2], typed).rstrip(" .!")


def meant(word: str) -> str:
    """A word as it is meant, after its signs are mended: a keyword, a card or several, or the word itself."""
    cards = re.sub("(?:1[0O]|0)(?=[CDHS])", "T", re.sub("^([CDHS])(.{1,2})$", r"\2\1", word.upper()))
    typed = " ".join(re.findall("..", cards)) if re.fullmatch(f"({CARD})+", cards) else word
    return MEANT.get(word.lower().rstrip(":"), typed)


def words_of(text: str) -> list[str]:
    """The words of a line that is no node's, or of a cell, each as it is meant."""
    between = rf"{ARROW}|(?<=\d)(?:-| to )(?=\d)|(?<=[CDHS])-(?=\w)| - |\.+(?= )|[][(),;:/|&+]|\b(?:and|says?|plays)\b"
    typed = " ".join(map(meant, re.sub(between, " ", text, flags=re.I).split()))
    typed = re.sub(rf"(?i)(?<!\S)([{RANKS}]|10) ([CDHS])(?!\S)", lambda card: meant(card[1] + card[2]), typed)
    typed = re.sub(r"^(goal|score) (?:holes (?=win|stop)|own(?:er)? (\d+ )opp(?:onent)? (?=\d))", r"\1 \2", typed)
    return re.sub(rf"\b(own|opp)(?:er|onent)(?= (?:{CARD}|go)\b)", r"\1", typed).split()


def bare(name: str) -> str:
    """A name without the signs that people put around it."""
    return name.strip("()[]:.,")


def letters_of(word: str, others: str = LETTERS) -> str:
    """The letters that a branch such as `A4-Kgo` lists, in order and each once; "" if it lists something else."""
    found = {*LETTERS} - {*others} if re.fullmatch("else|others?|otherwise|rest", word, re.I) else set()
    letters = re.sub("GO?", "g", word.upper().replace("10", "T")) if re.fullmatch(BRANCH, word, re.I) else ""
    for first, last in re.findall("(.)(?:-(.))?", letters):
        low, high = sorted(map(LETTERS.index, (first, last or first)))
        found.update(LETTERS[low : high + 1])
    return "".join(sorted(found, key=LETTERS.index))


def joined(words: str) -> list[str]:
    """The branches of a see line, each as one word."""
    words = re.sub(" *: *", ":", re.sub("[,;/|&+ ]+", " ", words))
    words = re.sub(r" +- *|- +|\.\.+| to ", "-", re.sub(" (?:and|or) ", " ", words))
    return re.sub(rf"(?<!\S)({BRANCH}) (?=(?:{BRANCH} ){{0,13}}{BRANCH}:)", r"\1", words, flags=re.I).split()


class Node:
    """A line of a plan: its name, what it does, and the rest, as words."""

    def __init__(self, words: list[str], has_name: bool = True, has_kind: bool = True) -> None:
        self.name, kind = bare(words[0]) * has_name, meant(words[has_name]) if has_kind else ""
        rest = words[has_name + has_kind :]
        self.is_see = kind == "see" or kind != "play" and ":" in "".join(rest[:1])
        self.rest = joined(" ".join(rest)) if self.is_see else rest
        names = [word.rpartition(":")[2] for word in self.rest if ":" in word] if self.is_see else self.rest[1:]
        self.places: dict[str, int | None] = dict.fromkeys(filter(None, names))  # what each name means


def node_of(line: str, in_plan: bool) -> Node | None:
    """Reads a line as that of a node. If `play` or `see` is mistyped or missing, the card or the branches show it."""
    line = re.sub(r"(?i)^(\S+ )(?:look|if)(?= .*[:→=])", r"\1see", line)
    words = re.sub(ARROW, ":", re.sub(rf"\b({CARD}|10[CDHS]){NEXT}", r"\1 ", line, flags=re.I)).split()
    first, second, third = map(meant, [*words, "", ""][:3])
    if second in ("play", "see"):
        return Node(words)
    if not in_plan or not second or first in KEYWORDS:
        return Node(words, has_name=False) if in_plan and first in ("play", "see") else None
    if ":" in second or re.fullmatch(CARD, second):
        return Node(words, has_kind=False)
    return Node(words) if ":" in third or len(words) < 5 and re.fullmatch(CARD, third) else None


class Plan:
    """The nodes of a plan in the order of their lines, their numbers, and what is reported of them."""

    def __init__(self, nodes: list[Node]) -> None:
        self.nodes, self.numbers, self.notes = nodes, [*range(len(nodes))], list[str]()
        self.names, self.twice = {"end": END}, set[str]()
        self.are_kept = False  # whether all names are kept, with the order of the lines
        is_named = any(node.name for node in nodes)
        for at, node in enumerate(nodes):
            node.name = node.name or f"{MARK * is_named}{at}"
            other = self.names.setdefault(node.name, at)
            if other != at:
                self.twice.add(node.name)
                means = "means the end of the plan" if other == END else f"is that of line {MARK}{other}{MARK} too"
                self.notes.append(f'line {MARK}{at}{MARK}: the name "{node.name}" {means}')
        small = Counter(map(str.lower, self.names))
        self.names |= {name.lower(): at for name, at in self.names.items() if small[name.lower()] == 1}
        for at, node in enumerate(nodes):
            for name in node.places:
                node.places[name] = self.place_of(name)
                if node.places[name] is None and (node.is_see or len(node.rest) == 2):
                    self.notes.append(f'line {MARK}{at}{MARK}: no node has the name "{name}"')
                    self.are_kept |= name.isdecimal() and int(name) < len(nodes)
        if not self.are_kept:
            self.sort()

    def place_of(self, word: str) -> int | None:
        """The node that a word names, in small letters if need be, or END, or None."""
        return self.names.get(bare(word), self.names.get(bare(word).lower()))

    def sort(self) -> None:
        """Numbers the nodes: in the order of lines, if each leads to later ones; or each behind all that lead to it."""
        # A play node without a next one leads to the line below it, if nothing else does. The first is the node "0", or
        # the first line, or the only one that no other leads to.
        led_to = {place for node in self.nodes for place in node.places.values()}
        for at, node in enumerate(self.nodes, 1):
            if not node.is_see and len(node.rest) == 1 and re.fullmatch(CARD, meant(node.rest[0])) and at not in led_to:
                name, place = (self.nodes[at].name, at) if at < len(self.nodes) else ("end", END)
                node.rest.append(name)
                node.places[name] = place
        leads = [(at, to) for at, node in enumerate(self.nodes) for to in node.places.values() if to not in (END, None)]
        roots = sorted({*self.numbers} - {to for _, to in leads})
        firsts = [self.names.get("0"), 0, *roots[: 1 if len(roots) == 1 or self.notes else 0]]
        first = next((at for at in firsts if at in roots), None)
        if not first and all(at < to for at, to in leads):
            return
        if roots and first is None:
            self.notes.append("the nodes are not sorted, since the first is not clear")
            return
        sorter = TopologicalSorter({first: ()})
        for at, to in [*((first, at) for at in roots if at != first), *leads]:
            sorter.add(to, at)
        try:
            self.numbers.sort(key=[*sorter.static_order()].__getitem__)
            self.notes.append("the nodes are sorted: each leads to later ones")
        except CycleError:
            self.notes.append("the nodes are not sorted, since some lead in a circle")

    def target(self, word: str) -> str:
        """The word for what a word leads to."""
        place = None if self.are_kept else self.place_of(word)
        return word if place is None else "end" if place == END else str(self.numbers[place])

    def branches(self, at: int) -> list[str]:
        """The branches of a node in order, one for each node that they lead to; or in theirs, if one isn't clear."""
        parts = [part.rpartition(":") for part in self.nodes[at].rest]
        named = "".join(letters_of(front) for front, _, _ in parts)
        branches = [(letters_of(front, named), self.target(word) if colon else word) for front, colon, word in parts]
        targets: dict[str, str] = {}
        twice = [letter for letters, to in branches for letter in letters if targets.setdefault(letter, to) != to]
        typed = [(letters or part[0]) + part[1] + to for part, (letters, to) in zip(parts, branches)]
        unclear = [word for word, branch in zip(typed, branches) if not all(branch)]
        if twice or unclear:
            fault = f"{twice[0]} leads to two nodes" if twice else f'"{unclear[0]}" is not ranks, a colon and a node'
            self.notes.append(f"line {MARK}{at}{MARK}: {fault}")
            return typed
        order = sorted(targets, key=LETTERS.index)
        words = dict.fromkeys(targets[letter] for letter in order)
        return ["".join(letter for letter in order if targets[letter] == word) + f":{word}" for word in words]

    def line(self, at: int) -> str:
        """The line of a node."""
        node = self.nodes[at]
        name = node.name if self.are_kept or node.name in self.twice else str(self.numbers[at])
        rest = self.branches(at) if node.is_see else [*map(meant, node.rest[:1]), *map(self.target, node.rest[1:])]
        return " ".join(word for word in (name, "see" if node.is_see else "play", *rest) if word[0] != MARK)


def read_sheet(sheet: list[str], notes: list[str]) -> list[str]:
    """The plan of a printed sheet. Each card and each look is a node, with the name of its paragraph or two numbers."""
    rows = ROWS.findall("\n".join([*sheet, ""]))
    made = ["plan 1", "nodes"] if rows else sheet
    looks: list[tuple[int, int]] = []  # the blanks before each look that is open, and the place of its line
    for at, row in enumerate(filter(None, "".join(rows[-1:]).splitlines())):
        if not (found := re.fullmatch(ROW, row)) or found[3] and not any(one[0] < len(found[1]) for one in looks):
            if not row.lstrip().startswith(("This plan is long", "No card is needed", "The plan states no card")):
                notes.append(f'this row, or the blanks in front of it, can\'t be read: "{row.strip()}"')
                made.append(row)
            continue
        blanks, name, label, cards, look, target = found.groups()
        steps = [*cards.replace(",", "").split(), *filter(None, [look])]
        names = [name or f"{at}.0", *(f"{at}.{step}" for step in range(1, len(steps)))]
        names[len(steps) :] = [target or "end"]
        looks = [one for one in looks if one[0] < len(blanks)]
        if label and looks:
            made[looks[-1][1]] += f" {label.replace(' ', '')}:{names[0]}"
        for step, name, following in zip(steps, names, names[1:]):
            looks += [(len(blanks), len(made))] * (step == look)
            made.append(f"{name} see" if step == look else f"{name} play {step} {following}")
    return made


def section_lines(section: list[tuple[str, list[str] | Node]], start: int, notes: list[str]) -> list[tuple[str, str]]:
    """The lines of a section, each behind what was typed for it. What is reported of its nodes is put into notes."""
    for at in [at for at, (_, words) in enumerate(section) if not isinstance(words, Node) and words[0] in COUNTED]:
        words, below = section[at][1], [words for _, words in section[at + 1 :]]
        kinds = [Node if isinstance(words, Node) else re.fullmatch(ACT, " ".join(words)) for words in below]
        can_be_read = all(kind and (kind is Node) == (words[0] == "nodes") for kind in kinds)
        if len(words) == 1 or len(words) == 2 and can_be_read:
            words[1:] = [str(len(below))]
    slots = [at for at, (_, words) in enumerate(section) if isinstance(words, Node)]
    plan = Plan([section[at][1] for at in slots])
    made = [(typed, "" if isinstance(words, Node) else " ".join(words)) for typed, words in section]
    for at, slot in enumerate(slots):
        made[slots[plan.numbers[at]]] = (section[slot][0], plan.line(at))
    place = [start + slots[number] + 1 for number in plan.numbers]
    notes += [re.sub(f"{MARK}(.*?){MARK}", lambda at: str(place[int(at[1])]), note) for note in plan.notes]
    return made


def main() -> None:
    """Mends standard input, and reports what has changed."""
    given = sys.stdin.buffer.read()
    if len(given) > 8_388_608:
        say("the input is longer than 8,388,608 bytes")
        print("refused line 0: 2")
        sys.exit(2)
    *typed, last = decoded(given).split("\n")
    # Lines such as holds or fails stuck, of an answer beside a plan or a game, are taken out.
    lines = [(old, re.sub(r"^(holds|reached|fails \w+)$", "", plain(old))) for old in typed + [last] * bool(last)]
    start = next((at for at, (_, line) in enumerate(lines) if SHEET.match(line)), len(lines))
    is_head = re.compile(r" *(?:problem|plan|game|turns)\W*\d*", re.I).fullmatch
    top = next((at for at, (_, line) in enumerate(lines[:start]) if re.fullmatch(r"(?i) *problem\W*\d", line)), 0)
    end = next((at for at in range(start, len(lines)) if is_head(lines[at][1])), len(lines))
    notes = ["a printed sheet is read as its plan"] * (start < end)
    printed, blanks, in_plan, sections = [], 0, False, [[]]
    lines[start:end] = [(MARK, line) for line in read_sheet([line for _, line in lines[start:end]], notes)]
    above = [line for _, line in lines[:top] if line]
    if above and not any(re.fullmatch(rf"(?i)(?:(?:{'|'.join(KEYWORDS)}|{CARD}|\d+)\b\W*)+", line) for line in above):
        notes.append(f"left out above the problem: {' / '.join(above)}")
        lines[:top] = []
    for typed_line, line in lines:
        bare_line = " ".join(typed_line.split())
        blanks += not line or bare_line != typed_line
        if line:
            is_table = len(sections) == 1 and TABLE.search(typed_line)  # which cribplan-many reads
            words = is_table and [bare_line] or node_of(" ".join(line.split()), in_plan) or words_of(line) or [line]
            if not isinstance(words, Node) and words[0] in ("problem", "plan", "game", "turns"):
                words += ["1"] * (words in (["plan"], ["game"]))
                sections.append([])
                in_plan = words[0] == "plan"
            has_acts = not isinstance(words, Node) and words[0] in (*COUNTED, "own", "opp")
            parts = re.split(f" (?={ACT})", " ".join(words)) if has_acts else []
            sections[-1] += [(bare_line, part.split()) for part in parts] or [(bare_line, words)]
    for section in sections:
        printed += section_lines(section, len(printed), notes)
    notes += [f"line {at}: {line}" for at, (old, line) in enumerate(printed, 1) if old not in (line, MARK)]
    notes += [f"blanks, line ends, empty lines or verdicts taken out, lines: {blanks}"] * bool(blanks)
    for note in notes + ["the end of the last line: added"] * bool(last):
        say(note)
    sys.stdout.buffer.write("".join(f"{line}\n" for _, line in printed).encode(errors="surrogateescape"))


if __name__ == "__main__":
    main()
