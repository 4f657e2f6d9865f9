"""What the scripts read of the repository: its pages; and its definitions, where they are, and what each rests on.

Of a page it reads sections, tables, quotes and names in backticks. Of each crate it reads the folders `specs` and
`src`: definitions with their lines, the types and traits of Rust with their fields, views and invariants, and the
clauses of functions. A name of a file means what the `use` and `ghost use` lines of the file say, or a definition of
the same file. Comments, blank lines and imports don't count as lines of a definition, and what the library of the
toolchain defines counts for nothing. `tell` ends a script.
"""

import re
import sys
from collections import defaultdict, namedtuple
from collections.abc import Callable, Iterable, Iterator
from functools import cache
from itertools import accumulate, takewhile
from pathlib import Path
from typing import NoReturn

ROOT = Path(__file__).resolve().parent.parent
CRATES = ROOT / "crates"
NAME = re.compile(r"(?<![\w.])[^\W\d][\w'-]*(?:\.[\w'-]+)?|>>=|←")
USED = r"(?:Rattle\.(\w+)\.(specs|proofs)\.)?([\w.+]+?)(?:\.\{([^}]*)\}| as (\w+))?"  # what an import names
IMPORT = re.compile(rf"^ *(?:pub )?(?:ghost )?use {USED};?$", re.M)
# A type or a view of Rust: to its semicolon, or to the brace that closes it.
ITEM_HEAD = r"(?:pub(?:\(\w+\))? )?(?:struct|enum|trait) (\w+)|impl.* Model for (\w+)"
ITEM = re.compile(rf"^((?:{ITEM_HEAD})(?:.*[;}}] *$|(?s:.*?)^\}}.*$))", re.M)


def tell(tried: int, faults: Iterable[str]) -> NoReturn:
    """Prints the faults, a line for each, and then the last line, and ends the script: with 1 if something failed."""
    failed = [*faults]
    print(*failed, f"{max(tried - len(failed), 0)} passed, {len(failed)} failed", sep="\n")
    sys.exit(1 if failed else 0)


def files(*patterns: str) -> list[Path]:
    """The files of some patterns, those of each in their order."""
    return [path for pattern in patterns for path in sorted(ROOT.glob(pattern)) if path.is_file()]


ALL_PAGES = files("*.md", "docs/*.md", "docs/*.1", "*/README.md", "crates/*/README.md", "bench/*/README.md")
PAGES = {str(path.relative_to(ROOT)): path.read_text() for path in ALL_PAGES}


def section(text: str, head: str) -> str:
    """The part of a page below a heading, up to the next heading of its kind."""
    end = rf"(?=^{head.split()[0]} (?![^\n]*  )|\Z)"
    found = re.search(rf"^{re.escape(head)}(?!\w)[^\n]*\n(.*?){end}", text, re.M | re.S)
    return found[1] if found else ""


def rows(text: str) -> list[list[str]]:
    """The cells of each row of the tables in a text. A table's first row is its head."""
    return [re.split(r" *(?<!\\)\| *", line.strip()) for line in re.findall(r"^\|(?!-)(.*)\|$", text, re.M)]


def fenced(text: str) -> list[str]:
    return re.findall(r"^```[^\n]*\n(.*?)^```$", text, re.M | re.S)


def quoted(text: str) -> list[str]:
    return re.findall(r"`([^`]+)`", text)


Import = namedtuple("Import", "crate kind place names alias")  # the kind is `specs` or `proofs`


def imports_of(text: str) -> Iterator[Import]:
    """The imports of a text, with the names that they get. One without names has an alias, if only its last part."""
    for crate, kind, place, names, alias in IMPORT.findall(text):
        pairs = [(name.strip().replace("◌", "").split(" as ") * 2)[:2] for name in names.split(",") if name.strip()]
        yield Import(crate, kind, place, dict(pairs), alias or place.split(".")[-1])


def remark_of(path: Path) -> str:
    """What begins a comment in a file."""
    return {".rt": "//", ".antt": "--"}.get(path.suffix, "#")


def without_remarks(text: str, mark: str = "--") -> str:
    """A text without its comments. What looks like one within a text in quotes stays."""
    return re.sub(rf'("(?:[^"\\\n]|\\.)*")|{mark}.*', lambda found: found[1] or "", text)


def code_lines(lines: list[str]) -> list[str]:
    """The lines that count: no blank, no comment, no import, no attribute."""
    return [line for line in lines if not re.match(r"\s*($|--|//|#\[|(ghost )?use |(pub )?mod )", line)]


class Block:
    """A definition, a type with its view, or a function's head: its text, the lines that count, and their names."""

    def __init__(self, path: Path, name: str, lines: list[str]) -> None:
        self.path, self.name, self.text, self.lines = path, name, lines, code_lines(lines)
        aside = r'"[^"]*"|//.*|--.*'  # texts and remarks, and in Rust the names of variants
        aside += r"|^    \w+(?=[,(])" if path.suffix == ".rt" else ""
        words = NAME.findall("\n".join(re.sub(aside, "", line) for line in self.lines))
        self.words = {part for word in words for part in (word, word.split(".")[0])}

    @property
    def comment(self) -> str:
        """What the comment above says, as one line. The comment above the imports is the file's."""
        last = max((n for n, line in enumerate(self.text) if re.match(r"\s*(ghost )?use ", line)), default=-1)
        said = takewhile(lambda line: line.startswith("--"), self.text[last + 1 :])
        return " ".join(line.removeprefix("--").strip() for line in said if not line.startswith("-- ----"))


def place_of(path: Path) -> tuple[str, str]:
    """The crate of a file, and the module that it is."""
    crate, _, *module = path.relative_to(CRATES).with_suffix("").parts
    return crate, ".".join(module)


def is_of_examples(path: Path) -> bool:
    """Whether a file of proofs has worked examples: its first line says so."""
    return "worked" in path.read_text().split("\n", 1)[0].lower()


def crates() -> list[str]:
    return re.findall(r"^(\w+):", (ROOT / "crates.txt").read_text(), re.M)


def code_files(crate: str = "*") -> list[Path]:
    """The files of src of a crate, or of all crates, in folders too. Tests are left out: their folders and crates."""
    return [path for path in files(f"crates/{crate}/src/**/*.rt") if "tests/" not in str(path.relative_to(CRATES))]


def reached(roots: Iterable, below: Callable[..., Iterable]) -> list:
    """Some roots, and all that is below them."""
    found = dict.fromkeys(roots)
    ahead = [*found]
    while ahead:
        more = [one for one in below(ahead.pop()) if one not in found]
        found.update(dict.fromkeys(more))
        ahead += more
    return [*found]


def exported(crate: str) -> set[str]:
    """The names that the `lib.rt` of a crate exports; of a program those that its files declare as `pub`."""
    text = "\n".join(path.read_text() for path in files(f"crates/{crate}/src/lib.rt") or code_files(crate))
    found = re.findall(r"^pub use (?:\w+::)+(\{[^}]*\}|\w+);|^pub \w+ (\w+)", text, re.M)
    return {*re.findall(r"\w+", " ".join(map(" ".join, found)))}


def paragraphs(text: str) -> list[str]:
    """The declarations of a file of antt: blank lines part them, and what is indented goes on with the one before."""
    return re.split(r"\n\n(?! )", text)


def declared_names(block: str) -> list[str]:
    """The names that a declaration of antt declares: its own, those of a `mutual` block, and the variants of a type."""
    code = re.sub(r"^ *(?:--|(?:pub )?(?:use|mod) |infix).*\n?", "", block, flags=re.M)
    if record := re.match(r"\n*(?:pub )?record (\w+)", code):
        return [record[1]]
    head = r"^ *(?:abbrev |unfoldable )?pub (?:data )?([^\s:(]+)"
    head += r"|^(?:abbrev |unfoldable |data )?([^\s:(]+)(?: [({].*[)}])* :"
    head += r"|^ +(\w+) :" if re.search(r"^ *(pub )?data ", code, re.M) else ""
    return ["".join(found).replace("◌", "") for found in re.findall(head, code, re.M)]


def spec_blocks(path: Path) -> Iterator[tuple[str, Block]]:
    for part in paragraphs(path.read_text()):
        names = declared_names(part)
        block = Block(path, " ".join(names), part.splitlines())
        yield from ((name, block) for name in names)


def type_blocks(path: Path) -> list[tuple[str, Block]]:
    """The structs, enums and traits that a file of src declares, with their views and invariants."""
    items = ITEM.findall(path.read_text())
    views = {viewed: text for text, _, viewed in items}
    texts = {name: f"{text}\n{views.get(name, '')}" for text, name, _ in items if name}
    return [(name, Block(path, name, text.splitlines())) for name, text in texts.items()]


class Function(namedtuple("Function", "path name owner is_pub within lines body")):
    """A function of src, or a ghost member, within `impl`, `trait` or `for`, with the lines of its head and body."""

    @property
    def is_ghost(self) -> bool:
        return self.lines[0].lstrip().startswith("ghost")

    @property
    def called(self) -> str:
        return f"{self.owner}::{self.name}".removeprefix("::")

    def head(self, *clauses: str) -> Block:
        """The head as a block: all of it, or its types and the clauses of some names."""
        is_chosen, chosen = True, []
        for line in self.lines:
            if clauses and (clause := re.match(r"\s*(?:requires|ensures (\w*))", line)):
                is_chosen = clause[1] in clauses
            chosen += [line] * is_chosen
        return Block(self.path, self.name, chosen)


def head_and_body(lines: list[str], start: int) -> tuple[list[str], list[str]]:
    """The lines of a function's head, to its body or to the semicolon that ends it; and those of its body."""
    margin = re.match(" *", lines[start])[0]
    depths = accumulate(line.count("{") - line.count("}") for line in lines[start:])
    for n, (line, depth) in enumerate(zip(lines[start:], depths), start):
        if re.match(rf"{margin}\S", line) and line.endswith(("{", "}")):
            end = lines.index(margin + "}", n) if line.endswith("{") else n
            return lines[start : n + (line.strip() not in ("{", "{}"))], lines[n + 1 : end]
        if line.endswith(";") and not depth:
            return lines[start : n + 1], []
    return lines[start:], []


def functions_of(path: Path) -> Iterator[Function]:
    """The functions and the ghost members that a file of src declares, in traits and in impls as well."""
    lines = path.read_text().splitlines()
    owner = within = ""
    for n, line in enumerate(lines):
        if line == "}":
            owner = within = ""
        elif block := re.match(r"(?:pub )?(impl|trait)\b(.*)", line):
            words = re.sub(r"<[^<>]*>", "", re.sub(r"<[^<>]*>", "", block[2])).split(" where ")[0]
            owner, within = re.findall(r"\w+", words.split(":")[0])[-1], "for" if " for " in words else block[1]
        elif ghost := re.match(r"    ghost (\w+) = ", line):
            end = next(m for m in range(n, len(lines)) if lines[m].endswith("};"))
            yield Function(path, ghost[1], owner, False, within, lines[n : end + 1], [])
        elif found := re.match(r"\s*(pub )?(?:pub\(\w+\) )?(?:const )?fn (\w+)", line):
            yield Function(path, found[2], owner, bool(found[1]), within, *head_and_body(lines, n))


def calls_of(crate: str) -> dict[str, Function]:
    """The calls that a crate exports, of a method by `Type::name`."""
    names = exported(crate)
    every = [one for path in code_files(crate) for one in functions_of(path)]
    calls = [one for one in every if one.is_pub or one.within == "trait" and not one.is_ghost]
    return {one.called: one for one in calls if (one.owner or one.name) in names}


class Source:
    """All definitions of the repository, and what the names of each file mean."""

    def __init__(self) -> None:
        self.specs: dict[tuple[str, str], dict[str, Block]] = defaultdict(dict)  # by crate and module, and by name
        self.types: dict[str, dict[str, Block]] = defaultdict(dict)  # by crate, and by name
        self.instead: dict[str, Block] = {}  # what is read in place of a definition of that name: a law says the same
        for path in files("crates/*/specs/**/*.antt"):
            self.specs[place_of(path)].update(spec_blocks(path))
        for path in code_files():
            self.types[place_of(path)[0]].update(type_blocks(path))

    @cache
    def meanings(self, path: Path) -> dict[str, Block]:
        (crate, module), text = place_of(path), path.read_text()
        found = dict(self.specs[crate, module] if path.suffix == ".antt" else self.rust_types(crate, text))
        for one in (one for one in imports_of(text) if one.kind == "specs"):
            self.add_import(found, one)
        return found

    def rust_types(self, crate: str, text: str) -> dict[str, Block]:
        """The types that the names of a file of src may be: those it imports, else its crate's, else any crate's."""
        found = {name: block for its in (*self.types.values(), self.types[crate]) for name, block in its.items()}
        for its, names in re.findall(r"^use (\w+)::([^;]*);", text, re.M):
            found |= {name: self.types[its][name] for name in re.findall(r"\w+", names) if name in self.types[its]}
        return found

    def add_import(self, found: dict[str, Block], one: Import) -> None:
        """Adds what an import names. What is of the library counts for nothing."""
        place = one.place.removesuffix(".TheVariants")
        last = place.split(".")[-1]
        for name, used in (one.names or {last: one.alias}).items():
            if not (CRATES / one.crate).is_dir() or place.startswith("contracts."):
                found.pop(used, None)
            elif place.startswith("declared."):
                found[used] = self.types[one.crate][last]
            elif one.names:
                found[used] = self.specs[one.crate, place][name]
            else:
                found |= {f"{used}.{its}": block for its, block in self.specs[one.crate, place].items()}

    def cited(self, block: Block) -> list[Block]:
        """The definitions and the types that a block names."""
        meanings = self.meanings(block.path)
        words = block.words | ({">>="} if "←" in block.words else set())
        return [*dict.fromkeys(self.instead.get(word, meanings[word]) for word in sorted(words) if word in meanings)]
