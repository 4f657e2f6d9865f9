"""Single changes of definitions, in what a definition says and never in its signature or in the patterns of its cases.

The kinds:
- a bound: one number more or less, `<` for `≤`, `≤` for `=`, no bound, a list longer or shorter by one;
- what may follow: a step of reading dropped, a list without its first or last item;
- which of two refusals, with which line: two steps in the other order, another number, the value of another step;
- which side, score or end of a list: a side turned, a field, an argument or a definition replaced by one of its type, a
  list from behind or not reversed, a list before its first item;
- repetition: an item put in twice, a list without what it repeats;
- what widens: a clause, premise or filter dropped, an alternative that always holds or never, a condition denied,
  always true or never, a body that looks at nothing.
No longer made are two conditions in the other order and a list without the item just taken, which are few; a list
sorted, which is noticed like one from behind; a case with its neighbour's body, which is noticed like one that looks at
nothing; and two arguments exchanged, which is noticed like either of them in the place of both, or equal in meaning.

What may replace what is read from the sources: the variants of a type, the fields of a record, the signatures of the
definitions. Words of the library, and those that a change puts in, are in changed_words.txt.
"""

import re
import tomllib
from collections import defaultdict, namedtuple
from collections.abc import Iterable, Iterator
from itertools import accumulate, product

from example_crate import Module
from repository import ROOT, declared_names, imports_of, paragraphs

WORDS = tomllib.loads((ROOT / "tools/changed_words.txt").read_text())
HELPERS = WORDS["module"]["text"]
NAMES = ", ".join(map("".join, re.findall(r"^(?:pub use \S+\.\{(.*)\}|abbrev pub (\S+) :.*)$", HELPERS, re.M)))
HOMES = {word.strip("◌"): f"use Rattle.pins.specs.Changed.{{{word}}}" for word in NAMES.split(", ")}  # their imports
TOKEN = re.compile(r"\"[^\"]*\"|--[^\n]*|[\w'◌]+(?:\.[\w']+)*|\s+|∷|\+\+|&&|\|\||==|[^\s\w]")
NESTED = r"\((?:[^()]|\((?:[^()]|\((?:[^()]|\([^()]*\))*\))*\))*\)"  # what is in brackets, four deep
PARTS = {sign: re.compile(rf"(?:{NESTED}|\{{[^}}]*\}}|[^{sign}(){{}}])+") for sign in "×→⊎"}  # none is in brackets
CLAUSE = re.compile(r"(?!\(\w+ :.*\)$|List |Option )[¬(A-Z](?s:.*) [a-z(]")
ATOMIC = re.compile(r"[≡≤<]|\bIs(?:True|False)\b")  # a clause that is dropped by a change of one of its words
BEFORE_A_LIST = r" +(?:\((?:[^()]|\([^()]*\))*\) +|\w+ +)*(?:\((?:letters_of|cards_in|map rank_of) +)?$"
SETS = WORDS["same"].pop("sets")
SAME = {new: re.compile(rf"\b(?:{'|'.join(words)}){BEFORE_A_LIST}") for new, words in WORDS["same"].items()}

Edit = tuple[int, int, str]  # from where to where, and the new text
Change = namedtuple("Change", "module name line text key")  # the changed line, the module's text with it, and a name


def followers(kinds: Iterable[tuple[str, object]]) -> dict[str, str]:
    """Of some names the next one of the same kind, in a circle."""
    found: dict[object, list[str]] = defaultdict(list)
    for name, kind in kinds:
        found[kind].append(name)
    return {one: other for its in found.values() for one, other in zip(its, its[1:] + its[:1]) if one != other}


class Sources:
    """What the definitions are made of, as far as a change wants to know it."""

    def __init__(self, texts: dict[Module, str]) -> None:
        self.texts = texts
        self.fields: dict[str, set[str]] = defaultdict(set)  # of a record's field those that may stand for it
        self.signatures: dict[Module, dict[str, tuple[str, ...]]] = {}  # and the variants without a value
        every = "\n".join(texts.values())
        named = re.findall(r"^abbrev pub (\w+) : Type 0\n\1 = (.*)$", every, re.M)
        aliases = {alias: f"({kind})" if "→" in kind else kind for alias, kind in named}
        for record in re.findall(r"^pub record .* : Type 0 where\n((?:  .*\n?|\n(?=  ))*)", every, re.M):
            for name, other in followers(re.findall(r"^  pub (\w+) : (.*)$", record, re.M)).items():
                self.fields[name].add(other)
        for module, text in texts.items():
            signed = re.findall(r"^(?:abbrev |unfoldable )?pub ([\w'-]+) :((?:[^\n=]|\n +)*)$", text, re.M)
            signed += re.findall(r"^  (\w+) : (the_data)$", text, re.M)
            whole = {name: re.sub(r"\w+", lambda word: aliases.get(word[0], word[0]), its) for name, its in signed}
            types = {name: PARTS["→"].findall(its) for name, its in whole.items()}
            self.signatures[module] = {name: tuple(" ".join(one.split()) for one in its) for name, its in types.items()}


class Header:
    """What the imports of a module name, and what a name may turn into: the next variant, or one of its signature."""

    def __init__(self, sources: Sources, module: Module) -> None:
        self.fields, self.names, self.homes = sources.fields, set[str](), dict(HOMES)
        self.signatures = dict(sources.signatures[module])
        self.turned: dict[str, list[str]] = defaultdict(list)
        for one in imports_of(sources.texts[module]):
            self.names |= {*one.names}
            signed = sources.signatures.get((one.kind, one.crate, one.place), {})
            self.signatures = {name: signed[name] for name in one.names if name in signed} | self.signatures
            for name, other in followers(signed.items()).items():
                if name in one.names:
                    self.turned[name].append(other)
                    self.homes.setdefault(other, f"use Rattle.{one.crate}.specs.{one.place}.{{{other}}}")
                elif not one.names and one.place.endswith(".TheVariants"):
                    self.turned[f"{one.alias}.{name}"].append(f"{one.alias}.{other}")

    def with_import(self, text: str, new: str) -> str:
        """The text with an import for the first new word, if it wants one."""
        word = new.strip(" ()\n").split(" ")[0]
        if word not in self.homes or word in self.names:
            return text
        at = max(text.find("use "), 0)
        return f"{text[:at]}{self.homes[word]}\n{text[at:]}"


def sides_of(block: str) -> list[tuple[int, int]]:
    """Where a declaration says something: the types of a record's fields, the right sides of equations."""
    margin = "  " * bool(re.search(r"^(?:abbrev |unfoldable )?mutual$", block, re.M))
    side = rf"^{margin}(?!--|use )\S.*?(?<![<>=/≡])=(?![=/>])(.*(?:\n(?:{margin} .*|{margin}\}}))*)"
    if re.search(r"^pub record ", block, re.M):
        side = r"^  pub \w+ : (.*(?:\n    .*)*)"
    return [found.span(1) for found in re.finditer(side, block, re.M)]


class Definition:
    """A declaration: its text, and the types of its signature. A kind of change is a method that yields its edits."""

    def __init__(self, header: Header, block: str, name: str) -> None:
        self.header, self.block = header, block
        self.types = header.signatures.get(name) or ("",)

    def edits(self) -> Iterator[Edit]:
        kinds = (self.of_words, self.of_clauses, self.of_arguments, self.of_rests, self.of_steps, self.given_up)
        yield from (edit for span in sides_of(self.block) for kind in kinds for edit in kind(*span))

    def of_words(self, start: int, end: int) -> Iterator[Edit]:
        """Each word for another one, and each condition denied, always true and never."""
        tokens = [found for found in TOKEN.finditer(self.block, start, end) if not re.match(r"\s|--", found[0])]
        texts = ["", *(found[0] for found in tokens), ""]
        for n, (before, found, after) in enumerate(zip(texts, tokens, texts[2:])):
            token = found[0]
            if before == "λ" or after == "." or (token == "-" and after == ">"):
                continue
            yield from ((*found.span(), new) for new in self.others(found, before))
            if token == "if":
                depths = accumulate((one[0] == "if") - (one[0] == "then") for one in tokens[n:])
                span = found.end(), tokens[n + [*depths].index(0)].start()
                denied = f" not ({self.block[slice(*span)].strip()}) "
                yield from ((*span, new) for new in (denied, " true ", " false "))

    def others(self, found: re.Match[str], before: str) -> Iterator[str]:
        """What may replace a word: another word, one more or less, another last letter, another field."""
        token, is_last = found[0], self.block[found.end() :].lstrip().startswith("[]")
        yield from (new for new in WORDS["word"].get(token, []) if not (new == "∷last" and is_last))
        yield from self.header.turned.get(token, [])
        if token.isdigit() and before not in ("Type", "{"):
            yield from (str(number) for number in (int(token) + 1, int(token) - 1) if number >= 0)
        if token.startswith('"') and before == "codes" and len(token) > 2:
            yield f'{token[:-2]}{"y" if token[-2] == "x" else "x"}"'
        value, _, field = token.rpartition(".")
        if value and token not in self.header.turned:
            yield from (f"{value}.{other}" for other in sorted(self.header.fields.get(field, ())))

    def patterns(self, start: int, end: int) -> list[tuple[str, str]]:
        """The patterns before a side, each with its type; and the values of its steps, as if of one type."""
        head = self.block[self.block.rfind("\n", 0, start) + 1 : start].rstrip(" =")
        steps = re.findall(r"^ +(?!_)(\w+) ←", self.block[start:end], re.M)
        found = zip(re.findall(r"\((?:[^()]|\([^()]*\))*\)|\S+", head)[1:], self.types)
        return [*found, *((step, "step") for step in steps)]

    def uses(self, name: str, start: int, end: int, fields: str = ".") -> list[tuple[int, int]]:
        """Where a name is in a side, and neither in a text nor as a field. Its fields count if `fields` is empty."""
        found = re.finditer(rf"(?<![\w.'\"]){name}(?![\w'\"{fields}]| [=←] )", self.block[start:end])
        return [(start + use.start(), start + use.end()) for use in found]

    def of_arguments(self, start: int, end: int) -> Iterator[Edit]:
        """Each use of an argument for another one of its type, with one more, or of a list as another list."""
        patterns = [(one, kind) for one, kind in self.patterns(start, end) if one.isidentifier()]
        for one, kind in patterns:
            others = [other for other, its in patterns if its == kind and other != one]
            yield from ((*at, others[0]) for at in self.uses(one, start, end, "") if others)
            words = WORDS["argument"].get(kind) or WORDS["argument"].get(kind.split(" ")[0], [])
            for at, new in product(self.uses(one, start, end), words):
                if new not in SAME or one not in SETS and not SAME[new].search(self.block[start : at[0]]):
                    yield *at, f"({new} {one})"

    def of_rests(self, start: int, end: int) -> Iterator[Edit]:
        """Each use of the rest of a list with its first item."""
        for pattern, _ in self.patterns(start, end):
            if named := re.fullmatch(r"\((?:.* ∷ )?([^∷]+ ∷ (\w+))\)", pattern):
                yield from ((*at, f"({named[1]})") for at in self.uses(named[2], start, end))

    def of_steps(self, start: int, end: int) -> Iterator[Edit]:
        """Of steps after one another: one that only refuses passes, and two in the other order."""
        steps = [*re.compile(r"^ +(\w+) ← (.*)", re.M).finditer(self.block, start, end)]
        yield from ((*step.span(2), "Ok tt") for step in steps if step[1] == "_")
        for step, after in zip(steps, steps[1:]):
            if step.end() + 1 == after.start() and not re.search(rf"\b{step[1]}\b", after[2]):
                yield step.start(), after.end(), f"{after[0]}\n{step[0]}"

    def of_clauses(self, start: int, end: int) -> Iterator[Edit]:
        """A clause or premise that always holds, unless a change of a word drops it; an alternative that never does."""
        for sign, parts in PARTS.items() if self.types[-1] in ("", "Type 0") else ():
            found = [*parts.finditer(self.block, start, end)]
            for part, clause in ((part, part[0].strip()) for part in found):
                where = part.start() + part[0].index(clause)
                if CLAUSE.match(clause) and (len(found) > 1 if sign == "⊎" else not ATOMIC.search(clause)):
                    for word in ("Dropped", "Never")[: 1 + (sign == "⊎")]:
                        yield where, where + len(clause), word

    def given_up(self, start: int, end: int) -> Iterator[Edit]:
        """A body that looks at nothing."""
        result, body = self.types[-1], self.block[start:end].strip()
        for new in WORDS["body"].get(result) or WORDS["body"].get(result.split(" ")[0], []):
            if body not in (new, "Unit {0}", "true", "false"):
                yield start, end, f" {new}"


def changes_of(sources: Sources, module: Module) -> Iterator[Change]:
    """The changes of the definitions of a module, each new text once."""
    text, at, seen = sources.texts[module], 0, set()
    header = Header(sources, module)
    for block in paragraphs(text):
        at = text.index(block, at)
        names = declared_names(block)
        is_definition = re.search(r"^(?:abbrev|unfoldable|pub record) ", block, re.M)  # no import, data or lemma
        its = Definition(header, block, names[0]).edits() if is_definition else ()
        for start, end, new in its:
            changed = block[:start] + new + block[end:]
            if changed not in seen and changed != block:
                seen.add(changed)
                line = changed[changed.rfind("\n", 0, start) + 1 : start] + new + block[end:].split("\n")[0]
                line = " ".join(line.split())
                whole = header.with_import(text[:at] + changed + text[at + len(block) :], new)
                yield Change(module, names[0], line, whole, f"{module[1]}.{module[2]} {names[0]}: {line}")
