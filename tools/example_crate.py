"""One crate without code: the definitions of all crates and the worked examples that hold them to the rules.

A module `Rattle.CRATE.specs.M` of the repository is `Rattle.pins.specs.CRATE.M` there, and one of `proofs` likewise.
The types that `src` declares are written as antt has them: a type with a view is what it is seen as. A module of worked
examples says so in its first line. An example that rests on a lemma of another module is left out. What an example
unfolds is marked `unfoldable`, or its copy beside a changed definition can't unfold it.
"""

import re
import tomllib
from collections import defaultdict
from collections.abc import Iterable
from functools import cache
from itertools import chain
from pathlib import Path

from repository import CRATES, ROOT, code_files, declared_names, imports_of, is_of_examples, paragraphs, place_of
from repository import Source, reached, without_remarks

PATH = re.compile(r"\bRattle\.(crib\w*)\.(specs|proofs)\.(\w+(?:\.\w+)*)")
WORD = re.compile(r"(?<!\S)([^\s\w]+)(?!\S)|((([\w'-]+)(?:\.[\w'-]+)?)(?:\.[\w'-]+)*)")  # or a name's beginnings
LIBRARY = tomllib.loads((ROOT / "tools/library.txt").read_text())

Module = tuple[str, str, str]  # `specs` or `proofs`, the crate, the module


def file_of(module: Module, front: str = "") -> str:
    kind, crate, name = module
    return f"{kind}/{front}{crate}/{name.replace('.', '/')}.antt"


def path_of(module: Module) -> Path:
    kind, crate, name = module
    return CRATES / crate / kind / (name.replace(".", "/") + ".antt")


@cache
def module_of(crate: str, kind: str, name: str) -> Module | None:
    """The module that a name is of, if there is one. A declared type is a module, any other is below its module."""
    declared = re.match(r"declared\.(?:[a-z]\w*\.)*\w+", name)
    modules = [(kind, crate, one) for one in ([declared[0]] if declared else [name, name.rpartition(".")[0]])]
    return next((its for its in modules if (CRATES / crate / "specs" if declared else path_of(its)).exists()), None)


def modules_in(text: str) -> set[Module]:
    return {found for crate, kind, name in PATH.findall(text) if (found := module_of(crate, kind, name))}


class Declared:
    """The types that `src` declares, as antt has them."""

    def __init__(self) -> None:
        self.types = Source().types
        other_name = re.compile(r"^pub(?:\(\w+\))? type (\w+) = (.*);$", re.M)
        self.others = dict(chain.from_iterable(other_name.findall(path.read_text()) for path in code_files()))

    def type_in_antt(self, crate: str, rust: str, uses: set[str]) -> str:
        """A type of Rust as antt has it. Adds the imports for it."""
        rust = re.sub(r"<'\w+>|'\w+, ", "", self.others.get(rust.strip(), rust.strip()))
        if len(rust) == 1:  # it is a parameter
            return rust
        for form, antt in LIBRARY["forms"].items():
            if found := re.fullmatch(form, rust):
                inner = self.type_in_antt(crate, found[1], uses) if "{}" in antt else ""
                return antt.format(f"({inner})" if " " in inner else inner)
        name, _, over = rust.rstrip(">").partition("<")
        if name not in self.types[crate]:  # it is of the one crate that has it
            crate = next(its for its, types in self.types.items() if name in types and its.startswith("crib"))
        block = self.types[crate][name]
        text = "\n".join(block.text)
        if value := re.search(r"ghost Value = \{ (.*) \}", text):
            words, imports = {*re.findall(r"\w+", value[1])}, re.findall(r"ghost (use .*\{(.*)\});", text)
            uses.update(line for line, names in imports if words & {*re.findall(r"\w+", names)})
            return value[1]
        uses.add(f"use Rattle.{crate}.specs.declared.{place_of(block.path)[1]}.{name}.{{{name}}}")
        return f"{name} {over}".strip()

    def texts(self, crate: str, place: str) -> dict[str, str]:
        """The modules of a declared type: itself, and that of its variants if it is an enum."""
        name, inner, uses = place.split(".")[-1], f"{place}.TheVariants", {LIBRARY["uses"]}
        code = re.sub(r"#\[.*?\] ?|//.*", "", "\n".join(self.types[crate][name].text))
        head = r"(struct|enum) \w+(?:<(?:'\w+, )?([A-Z]\w*))?.*\n?((?s:.*?))(?:^\}|\Z)"
        kind, over, body = re.search(head, code, re.M).groups("")
        parameter = f" ({over} : Type 0)" * bool(over)
        if kind == "struct":
            fields = re.findall(r"^ *(?:pub(?:\(\w+\))? )?(\w+): (.*),", body, re.M)
            said = [f"  pub {field} : {self.type_in_antt(crate, rust, uses)}" for field, rust in fields]
            return {place: "\n".join([*sorted(uses), f"pub record {name}{parameter} : Type 0 where", *said, ""])}
        said = [f"pub data the_data{parameter} : Type 0 where"]
        for variant, held in re.findall(r"(\w+)(?:(?:\(| \{ )([^(){}]*)[)}])?,", " ".join(body.split())):
            parts = re.findall(r"(?:\w+: )?([^\s,<][^,<]*(?:<[^>]*>)?)", held)
            types = [f"{self.type_in_antt(crate, rust, uses)} → " for rust in parts]
            said.append(f"  {variant} : {''.join(types)}the_data {over}".rstrip())
        outside = f"pub mod TheVariants\npub use Rattle.{crate}.specs.{inner}.{{the_data as {name}}}\n"
        return {place: outside, inner: "\n".join([*sorted(uses), *said, ""])}


class Parts:
    """A module: its imports, its declarations, and of each the names that it declares and the words that it has."""

    def __init__(self, module: Module, text: str) -> None:
        self.module, self.text, self.imports = module, text, [*imports_of(text)]
        is_declared = module[2].startswith("declared.")
        code = [without_remarks(block) for block in ([text] if is_declared else paragraphs(text))]
        self.fixities = re.findall(r"^infix.*", "\n".join(code), re.M)
        self.blocks = [re.sub(r"^(?:use |infix).*\n?", "", block, flags=re.M).strip("\n") for block in code]
        own = {module[2].split(".")[-1]} if is_declared else set()
        self.names = [own.union(declared_names(block)) for block in self.blocks]
        self.words = [{*chain(*WORD.findall(block))} for block in self.blocks]

    def imported(self, names: dict[Module, Iterable[str]]) -> dict[str, tuple[Module, str]]:
        """The words that mean names of other modules: of each the module and the name."""
        found = [(one, module_of(one.crate, one.kind, one.place)) for one in self.imports]
        pairs = [(one, its, name) for one, its in found for name in names.get(its, ())]
        return {one.names.get(name) if one.names else f"{one.alias}.{name}": (its, name) for one, its, name in pairs}

    def narrowed(self, kept: set[int], fronts: dict[Module, str]) -> str:
        """A copy that has some of the declarations, and the others from the module itself."""
        its, again = [self.blocks[n] for n in sorted(kept)], []
        for n in (n for n, names in enumerate(self.names) if names and n not in kept):
            marked = [one if re.match(r"\w", one) else f"◌{one}◌" for one in sorted(self.names[n])]
            word = "unfoldable " * self.blocks[n].startswith("unfoldable ")
            again.append(f"{word}pub use Rattle.pins.{'.'.join(self.module)}.{{{', '.join(marked)}}}")
        fixed = [line for line in self.fixities if any(f"{sign} : " in "".join(its) for sign in line.split()[2:])]
        uses = re.findall(r"^use .*", self.text, re.M)
        return renamed("\n".join([*uses, *again, *fixed, *its, ""]), fronts)


def opened(text: str) -> str:
    """A module with all that it declares open to other modules."""
    named = r"(?!pub |use |infix|abbrev|unfoldable|record|data|mutual)(?=[\w'-]+(?: [({].*[)}])? :)"
    return re.sub(rf"^(abbrev |unfoldable )?(?:{named}|(?=(?:record|data) \w+.* where$))", r"\1pub ", text, flags=re.M)


def without_lemmas(text: str) -> str:
    """A module of examples without those that rest on a lemma of a module (`Example..` has none), or on one of these."""
    lost: set[str] = set()
    for one in imports_of(text):
        its = module_of(one.crate, one.kind, one.place)
        below = modules_in(path_of(its).read_text()) if its and its[0] == "proofs" else set()
        if any(kind == "proofs" and not name.startswith("Example") for kind, _, name in below - {its}):
            lost.update(one.names.values())
            text = re.sub(rf"^use Rattle\.{one.crate}\.proofs\.{re.escape(one.place)}\b.*\n", "", text, flags=re.M)
    blocks = paragraphs(text)
    while resting := [block for block in blocks if lost & {*chain(*WORD.findall(without_remarks(block)))}]:
        lost.update(chain.from_iterable(map(declared_names, resting)))
        blocks = [block for block in blocks if block not in resting]
    return "\n\n".join(blocks).rstrip("\n") + "\n"


def gathered(wanted: set[Module]) -> dict[Module, str]:
    """The modules of worked examples and of wanted definitions, with all that they name."""
    declared, texts = Declared(), {}
    examples = {("proofs", *place_of(path)) for path in CRATES.glob("*/proofs/*.antt") if is_of_examples(path)}

    def below(module: Module) -> set[Module]:
        kind, crate, name = module
        if name.startswith("declared."):
            made = declared.texts(crate, name)
        else:
            text = path_of(module).read_text()
            made = {name: opened(without_lemmas(text) if module in examples else text)}
        texts.update({(kind, crate, its): text for its, text in made.items()})
        return {its for text in made.values() for its in modules_in(text)}

    reached([*examples, *wanted], below)
    return texts


def renamed(text: str, front: dict[Module, str]) -> str:
    """A text with the names of this one crate; modules in `front` are below a name of their own."""
    fronts = defaultdict(str, front)
    return PATH.sub(lambda found: found.expand(rf"Rattle.pins.\2.{fronts[module_of(*found.groups())]}\1.\3"), text)


def with_nodes(files: dict[str, str]) -> dict[str, str]:
    """The files, with those that name the modules of each folder."""
    nodes: dict[Path, dict[str, str]] = defaultdict(dict)
    for file in map(Path, files):
        for one in (file.with_suffix(""), *file.parents[:-2]):
            nodes[one.parent][one.name] = f"pub mod {one.name}\n"
    made = {f"{node}.antt" if node.name != str(node) else f"{node}/Lib.antt": kids for node, kids in nodes.items()}
    return {file: "".join(kids.values()) for file, kids in made.items()} | files
