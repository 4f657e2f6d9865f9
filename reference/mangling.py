"""Mangles the text of an input, so that most are refused."""

from __future__ import annotations

from random import Random

from cards import DECK
from reading import MOST_BYTES

NUMBERS = ["0", "1", "2", "3", "5", "12", "00", "007", "-1", "32", "33", "120", "121", "122", "65535", "65536"]
NUMBERS += ["4294967295", "4294967296", "99999999999999999999"]
WORDS = ["problem", "plan", "game", "dealer", "score", "starter", "hold", "throw", "goal", "played", "nodes", "acts"]
WORDS += ["owner", "opponent", "win", "holes", "stop", "play", "see", "end", "own", "opp", "go", "g", "x", "", "A:1"]
WORDS += ["KA:2", "A:1:2", ":1", "A:", "A:end", "x:1", "AA:1", "Ag:3", "2c", "10C", "2:x", "end:1", "A23456789TJQKg:1"]
NUMBERED = ("problem", "score", "goal", "played", "plan", "nodes", "game", "acts")
CARDS = [card.text() for card in DECK]


def some_word(random: Random) -> str:
    """A word that is somewhere in a text, or nearly."""
    return random.choice(random.choice([NUMBERS, WORDS, CARDS]))


def with_other_byte(random: Random, text: str) -> str:
    """A byte put in, taken out or put in the place of another."""
    place = random.randrange(len(text) + 1)
    byte = chr(random.choice([10, 32, 58, random.randint(32, 126), random.randint(32, 126), random.randint(0, 255)]))
    return random.choice([
        text[:place] + byte + text[place:],
        text[:place] + text[place + 1 :],
        text[:place] + byte + text[place + 1 :],
    ])


def with_other_word(random: Random, text: str) -> str:
    """A word put in, taken out, changed, or put in the place of another of its line."""
    lines = text.split("\n")
    number = random.randrange(max(1, len(lines) - 1))
    words = lines[number].split(" ")
    place, other = random.randrange(len(words)), random.randrange(len(words))
    kind = random.randrange(6)
    if kind == 0:
        words.insert(place, some_word(random))
    elif kind == 1:
        del words[place]
    elif kind == 2:
        words[place], words[other] = words[other], words[place]
    elif kind == 3 and words[place].isdecimal():
        words[place] = str(max(0, int(words[place]) + random.choice([-2, -1, 1, 2])))
    elif kind == 4 and words[place] in CARDS:
        words[place] = random.choice(CARDS)
    else:
        words[place] = some_word(random)
    lines[number] = " ".join(words)
    return "\n".join(lines)


def with_other_line(random: Random, text: str) -> str:
    """A line taken out, written twice, put elsewhere, or added at the end."""
    lines = text.split("\n")[:-1] or [""]
    place, other = random.randrange(len(lines)), random.randrange(len(lines))
    kind = random.randrange(4)
    if kind == 0:
        del lines[place]
    elif kind == 1:
        lines.insert(other, lines[place])
    elif kind == 2:
        lines[place], lines[other] = lines[other], lines[place]
    else:
        lines.append(random.choice([lines[place], some_word(random)]))
    return "".join(f"{line}\n" for line in lines)


def cut(random: Random, text: str) -> str:
    """A beginning of the text, often of whole lines."""
    if random.random() < 0.5:
        return text[: random.randrange(len(text) + 1)]
    lines = text.splitlines(keepends=True)
    return "".join(lines[: random.randrange(len(lines) + 1)])


def with_other_act(random: Random, text: str) -> str:
    """An act changed, taken out or put in, and the number of acts with it."""
    lines = text.split("\n")
    heads = [number for number, line in enumerate(lines) if line.startswith(("played ", "acts "))]
    if not heads:
        return with_other_word(random, text)
    head = random.choice(heads)
    keyword, word = lines[head].split(" ", 1)
    if not word.isdecimal() or int(word) > len(lines) - head - 1:
        return text
    acts = lines[head + 1 : head + 1 + int(word)]
    rest = lines[head + 1 + int(word) :]
    place = random.randrange(len(acts) + 1)
    act = f"{random.choice(['own', 'opp'])} {random.choice([*CARDS, *['go'] * 20])}"
    kind = random.randrange(6)
    if kind == 0:
        acts.insert(random.choice([place, len(acts)]), act)
    elif kind == 1:
        del acts[place : random.choice([place + 1, len(acts)])]
    elif kind == 2 and len(acts) > 1:
        place = random.randrange(len(acts) - 1)
        acts[place], acts[place + 1] = acts[place + 1], acts[place]
    else:
        acts[place : place + 1] = [f"{side[:3]} {act[4:]}" for side in acts[place : place + 1]]
    return "\n".join([*lines[:head], f"{keyword} {len(acts)}", *acts, *rest])


def with_other_target(random: Random, text: str) -> str:
    """A branch or a target of a node changed."""
    lines = text.split("\n")
    nodes = [number for number, line in enumerate(lines) if " see " in line or " play " in line]
    if not nodes:
        return with_other_word(random, text)
    number = random.choice(nodes)
    words = lines[number].split(" ")
    place = random.randrange(2, len(words))
    letters, colon, target = words[place].rpartition(":")
    if random.random() < 0.5:
        target = random.choice([words[-1].rpartition(":")[2], "end", str(random.randint(0, 60)), some_word(random)])
    else:
        letters = random.choice([
            letters[::-1],
            letters[1:],
            letters + random.choice("A23456789TJQKgx"),
            "".join(sorted(letters)),
            words[-1].rpartition(":")[0],
        ])
    words[place] = letters + colon + target
    if random.random() < 0.3:
        other = random.randrange(2, len(words))
        words[place], words[other] = words[other], words[place]
    lines[number] = " ".join(words)
    return "\n".join(lines)


def with_other_number(random: Random, text: str) -> str:
    """A score, a goal or a count changed to something near a limit."""
    lines = text.split("\n")
    places = [number for number, line in enumerate(lines) if line.split(" ")[0] in NUMBERED]
    if not places:
        return with_other_word(random, text)
    number = random.choice(places)
    words = lines[number].split(" ")
    words[random.randrange(1, len(words)) if len(words) > 1 else 0] = random.choice(NUMBERS)
    lines[number] = " ".join(words)
    return "\n".join(lines)


def mangled(random: Random, text: str) -> bytes:
    """A text with one change or more."""
    kinds = [with_other_byte, with_other_word, with_other_line, with_other_number, cut]
    kinds += [with_other_act, with_other_act, with_other_target, with_other_target]
    for _ in range(random.choice([1, 1, 1, 2, 3])):
        if text:
            text = random.choice(kinds)(random, text)
    return text.encode("latin-1")


def padded(random: Random, text: str) -> bytes:
    """A text with so many bytes or lines after it that a limit is near."""
    if random.random() < 0.5:
        most = MOST_BYTES + random.choice([-1, 0, 1])
        return (text + " " * (most - len(text) - 1) + "\n").encode()
    nodes = random.choice([65_534, 65_535, 65_536])
    problem = text.split("plan 1\n")[0].split("game 1\n")[0]
    body = "".join(f"{number} play 5C end\n" for number in range(nodes))
    return f"{problem}plan 1\nnodes {nodes}\n{body}".encode()
