#!/usr/bin/env python3
"""Counts the definitions that have to be believed to believe a clause.

count-definitions.py FILE CLAUSE [--without NAME].. [--list]
count-definitions.py --from DEFINITION [--without NAME].. [--list]
count-definitions.py --check
count-definitions.py --update

The first form begins at the clause with that name in a file of Rattle, as `crates/pt_run/src/top.rt headline`, the second at
a definition, as `pt_semantics.specs.Meaning.IsMeaning`. From there it goes through the imports to each definition in the
folders specs/ of this repository that is named, and so on. It counts those definitions and their lines without comments and
blank lines. The standard library's words are not counted, nor the structs and enums of the code. `--without` leaves a
definition out with all that only it needs. `--list` lists the definitions by file. `--check` compares the numbers in
docs/PROOF-TOUR.md with what these sources give, and ends with 1 if they differ. `--update` writes them there.
"""

import argparse
import os
import re
import sys
from typing import Dict, Iterable, List, NamedTuple, Optional, Set, Tuple

TOP = os.path.dirname(os.path.dirname(os.path.abspath(__file__)))
TOUR = os.path.join(TOP, "docs", "PROOF-TOUR.md")
# A row of the tour's table: the arguments between backticks, and two numbers.
ROW = re.compile(r"^(\| `((?:crates/|--from )[^`]*)` \|[^|]*\|) ([0-9,]+) \| ([0-9,]+) \|$")

# A name, or a piece of an operator.
WORD = re.compile(r"[^\s(){}\[\],;]+")
HEAD = re.compile(r"^(?:(?:abbrev|unfoldable|opaque) )?(?:pub )?(?:(record|data) )?(\S+)\s*(?::|\(|\{|$)")
USE = re.compile(r"^\s*(?:pub |ghost )?use\s+([\w.«»]+?)(?:\.\{([^}]*)\})?(?:\s+as\s+(\S+?))?;?\s*$")
BOUND = re.compile(r"[({]([^(){}:]+?)\s*:(?!:)")
FIELD = re.compile(r"^\s+(?:pub )?(\w+)\s*:")
LOCAL = re.compile(r"\blet\s+\(?([\w', ]+?)\)?\s*(?::|=)")
LAMBDA = re.compile(r"λ\s+([^.]*?)\.(?:\s|$)")

# The names that a file brings in, each with its module and its name there.
Imports = Dict[str, Tuple[str, str]]


class Definition(NamedTuple):
    """A definition: its module, its name, the number of its lines, and these."""

    module: str
    name: str
    lines: int
    text: str


class Module(NamedTuple):
    """A file of specs/."""

    definitions: Dict[str, Definition]
    imports: Imports
    # The modules that it calls by a name of its own.
    aliases: Dict[str, str]


class Refused(Exception):
    """What is asked for is not there."""


def without_comment(line: str) -> str:
    """A line of antt without its comment and its texts."""
    line = re.sub(r'"[^"]*"', '""', line)
    return re.sub(r"(^|\s)--(\s.*)?$", "", line).rstrip()


def imports_of(lines: Iterable[str]) -> Tuple[Imports, Dict[str, str]]:
    """The names that a file's imports bring in: name to (module, name); and the modules that it names by another name."""
    names: Imports = {}
    aliases: Dict[str, str] = {}
    for line in lines:
        found = USE.match(line)
        if not found:
            continue
        module, listed, renamed = found.groups()
        if listed is None:
            aliases[renamed or module.rsplit(".", 1)[-1]] = module
            continue
        for item in listed.split(","):
            parts = item.split(" as ")
            original, name = parts[0].strip(), parts[-1].strip()
            if original:
                names[name] = (module, original)
    return names, aliases


def parse_module(module: str, path: str) -> Module:
    """The definitions of a file of specs/, by name."""
    with open(path, encoding="utf-8") as file:
        lines = [without_comment(line.rstrip("\n")) for line in file]
    names, aliases = imports_of(lines)
    blocks: Dict[str, List[str]] = {}
    current: Optional[str] = None
    for line in lines:
        if not line.strip() or USE.match(line) or re.match(r"^(pub )?mod ", line) or re.match(r"^infix", line):
            continue
        if not line[0].isspace():
            current = head_of(line, blocks, current)
            if current is not None:
                blocks.setdefault(current, [])
        if current is not None:
            blocks[current].append(line)
    definitions = {name: Definition(module, name, len(lines), "\n".join(lines)) for name, lines in blocks.items()}
    return Module(definitions, names, aliases)


def head_of(line: str, blocks: Dict[str, List[str]], current: Optional[str]) -> Optional[str]:
    """The name of the definition that a line at the margin belongs to."""
    found = HEAD.match(line)
    keyword = re.match(r"^(abbrev|unfoldable|opaque|pub|record|data)\b", line)
    if keyword and found:
        return found.group(2)
    first = line.split()[0]
    # A signature without a keyword, else an equation of the definition before it.
    if re.match(r"^\S+ : ", line) and first not in blocks:
        return first
    return first if first in blocks else current


class Specs:
    """The definitions of all crates."""

    def __init__(self, top: str) -> None:
        self.top = top
        self.modules: Dict[str, Optional[Module]] = {}

    def module(self, name: str) -> Optional[Module]:
        """A module of specs/ of this repository, else None."""
        if name not in self.modules:
            self.modules[name] = self.load(name)
        return self.modules[name]

    def load(self, name: str) -> Optional[Module]:
        parts = name.split(".")
        if parts[0] == "Rattle":
            parts = parts[1:]
        if len(parts) < 3 or parts[1] != "specs":
            return None
        path = os.path.join(self.top, "crates", parts[0], "specs", *parts[2:]) + ".antt"
        if not os.path.isfile(path):
            return None
        return parse_module(name, path)

    def resolve(self, module_name: str, name: str) -> Optional[Definition]:
        """The definition of a name in a module, through what it brings in again; None if it is not one of this repository."""
        for _ in range(10):
            module = self.module(module_name)
            if module is None:
                return None
            if name in module.definitions:
                return module.definitions[name]
            if name not in module.imports:
                return None
            module_name, name = module.imports[name]
        return None

    def named_in(self, text: str, names: Imports, aliases: Dict[str, str], own: Dict[str, Definition]) -> List[Definition]:
        """The definitions that a text names, in the order in which they occur."""
        hidden = bound_in(text)
        found: List[Definition] = []
        for word in words_of(text):
            target = None
            operator = f"◌{word}◌"
            key = operator if operator in own or operator in names else word
            head, _, rest = key.partition(".")
            if key in own and key not in hidden:
                target = own[key]
            elif key in names and key not in hidden:
                target = self.resolve(*names[key])
            elif rest and head in aliases:
                target = self.resolve(aliases[head], rest.split(".")[0])
            elif rest and head in names and head not in hidden:
                target = self.resolve(*names[head])
            if target is not None and target not in found:
                found.append(target)
        return found

    def below(self, starts: List[Definition], without: Set[str]) -> List[Definition]:
        """All definitions that these need, with themselves, but for those left out and what only they need."""
        met: Set[Tuple[str, str]] = set()
        order: List[Definition] = []
        todo = list(starts)
        while todo:
            definition = todo.pop(0)
            key = (definition.module, definition.name)
            if key in met or definition.name in without:
                continue
            met.add(key)
            order.append(definition)
            module = self.module(definition.module)
            assert module is not None
            own = {n: d for n, d in module.definitions.items() if n != definition.name}
            todo += self.named_in(definition.text, module.imports, module.aliases, own)
        return order


def words_of(text: str) -> List[str]:
    """The words of a text. A projection is one word with what it is taken of."""
    return [word.strip("`'\"") for word in WORD.findall(text)]


def bound_in(text: str) -> Set[str]:
    """The names that a definition binds itself: parameters, fields, variables of `λ` and `let`, and what its equations match."""
    hidden: Set[str] = set()
    for found in BOUND.findall(text):
        hidden.update(found.split())
    for found in LAMBDA.findall(text):
        hidden.update(re.findall(r"[\w']+", re.sub(r":[^)]*", "", found)))
    for found in LOCAL.findall(text):
        hidden.update(re.findall(r"[\w']+", found))
    lines = text.split("\n")
    if re.match(r"^(?:pub )?record ", text):
        hidden.update(found.group(1) for found in map(FIELD.match, lines[1:]) if found)
        return hidden
    name = None
    for line in lines:
        if line[0].isspace():
            continue
        head, equals, _ = line.partition(" = ")
        name = name or re.sub(r"^(abbrev |unfoldable |opaque )?(pub )?", "", line).split()[0]
        if equals and head.split()[0] == name:
            hidden.update(w for w in re.findall(r"[\w']+", head)[1:] if w[0].islower())
    return hidden


def clause_in(path: str, clause: str) -> Tuple[str, Imports, Dict[str, str]]:
    """The text of the first clause with this name in a file of Rattle, and the names that the file brings in."""
    try:
        with open(path, encoding="utf-8") as file:
            text = file.read()
    except OSError as error:
        raise Refused(f"{path}: {error.strerror}") from error
    found = re.search(rf"\bensures {re.escape(clause)} \{{", text)
    if not found:
        raise Refused(f"{path} has no clause `{clause}`")
    depth, at = 1, found.end()
    while depth and at < len(text):
        depth += {"{": 1, "}": -1}.get(text[at], 0)
        at += 1
    names, aliases = imports_of(text.split("\n"))
    return text[found.end() : at - 1], names, aliases


def starts_of(specs: Specs, arguments: argparse.Namespace) -> List[Definition]:
    """The definitions to begin with."""
    if arguments.start:
        module, _, name = arguments.start.rpartition(".")
        definition = specs.resolve(module if module.startswith("Rattle.") else f"Rattle.{module}", name)
        if definition is None:
            raise Refused(f"there is no definition `{arguments.start}`")
        return [definition]
    if not arguments.file or not arguments.clause:
        raise Refused("give a file and a clause, or --from and a definition")
    text, names, aliases = clause_in(os.path.join(TOP, arguments.file), arguments.clause)
    starts = specs.named_in(text, names, aliases, {})
    if not starts:
        raise Refused(f"the clause `{arguments.clause}` names no definition of this repository")
    return starts


def counted(specs: Specs, arguments: argparse.Namespace) -> List[Definition]:
    """The definitions that these arguments ask for."""
    found = specs.below(starts_of(specs, arguments), set())
    names = {definition.name for definition in found}
    for name in arguments.without:
        if name not in names:
            raise Refused(f"nothing named `{name}` is needed there")
    if arguments.without:
        found = specs.below(starts_of(specs, arguments), set(arguments.without))
    return found


def totals(found: List[Definition]) -> Tuple[int, int]:
    """How many definitions, and how many lines they have."""
    return len(found), sum(definition.lines for definition in found)


def parser() -> argparse.ArgumentParser:
    """The reader of the command line."""
    made = argparse.ArgumentParser(description=__doc__, formatter_class=argparse.RawDescriptionHelpFormatter)
    made.add_argument("file", nargs="?")
    made.add_argument("clause", nargs="?")
    made.add_argument("--from", dest="start", metavar="DEFINITION")
    made.add_argument("--without", action="append", default=[], metavar="NAME")
    made.add_argument("--list", action="store_true")
    made.add_argument("--check", action="store_true")
    made.add_argument("--update", action="store_true")
    return made


def compare(specs: Specs, update: bool) -> int:
    """Compares each row of the tour's table, or writes it anew; the status."""
    with open(TOUR, encoding="utf-8") as file:
        lines = file.read().split("\n")
    rows = [(index, found) for index, found in enumerate(map(ROW.match, lines)) if found]
    if not rows:
        raise Refused("docs/PROOF-TOUR.md has no row of numbers")
    wrong = 0
    for index, found in rows:
        front, words, *written = found.groups()
        numbers = [f"{number:,}" for number in totals(counted(specs, parser().parse_args(words.split())))]
        lines[index] = " ".join([front, numbers[0], "|", numbers[1], "|"])
        if written != numbers and not update:
            wrong += 1
            print(f"docs/PROOF-TOUR.md: `{words}` has {numbers[0]} definitions in {numbers[1]} lines, and not {written[0]} in {written[1]}")
    if update:
        with open(TOUR, "w", encoding="utf-8") as file:
            file.write("\n".join(lines))
    return 1 if wrong else 0


def main() -> int:
    arguments = parser().parse_args()
    specs = Specs(TOP)
    if arguments.check or arguments.update:
        return compare(specs, arguments.update)
    found = counted(specs, arguments)
    if arguments.list:
        for module in sorted({definition.module for definition in found}):
            names = [f"{d.name} {d.lines}" for d in found if d.module == module]
            print(f"{module.removeprefix('Rattle.')}: {', '.join(names)}")
    number, lines = totals(found)
    print(f"{number:,} definition{'s' if number != 1 else ''} in {lines:,} lines")
    return 0


if __name__ == "__main__":
    try:
        sys.exit(main())
    except Refused as refused:
        print(f"count-definitions.py: {refused}", file=sys.stderr)
        sys.exit(2)
