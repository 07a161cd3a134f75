#!/usr/bin/env python3
"""Checks that functions have the clauses that the documents say they have.

    check-clauses.py [TOP]        of the project in the folder TOP, or of this one

Documents name clauses in sentences, as "clauses `A` and `B` of `crate::name`", and in tables with the head `Crate | Function | Clause`.
A name is `crate::function`, `crate::Type`, `crate::Type::function` or, in a table, a function alone: of the type above, or else of its
crate. Empty cells are as above. A type has the clauses of its public functions and of its traits, and a trait those of its functions.

A cell of clauses has lists, with `;` between them: one for each name, or one for all names, or several for one name. A list is

    `A`, `B`                   each of these names has a `requires` or an `ensures`
    1, its one clause          the function has one `ensures`, without a name
    1 each                     so have all functions that are named; of a type all its public ones that have an `ensures`
    1 of each question         so have those of a type that take `&self`
    1 of each other question   so have those of them of which the cell names no clause

Where a cell says how many theorems there are, the crate has that many that no row names, each with its one clause. A theorem is a
public function whose body is empty. The last line is `N passed, M failed`.
"""
from __future__ import annotations

import re
import sys
from pathlib import Path
from typing import Iterator, NamedTuple

HERE = Path(__file__).resolve().parent
DOCUMENTS = ("*.md", "docs/*.md", "bench/*.md", "examples/README.md", "examples/*/README.md", "examples/*/*/README.md")
# A comment, a string, a letter in quotes, a name with what follows it of primes, an arrow, or one character.
TOKEN = re.compile(r"""//[^\n]*|"(?:\\.|[^"\\])*"|b?'(?:\\[^']*|[^\\'\n])'|\w[\w']*|->|\S""", re.DOTALL)
SENTENCE = re.compile(r"[Cc]lauses? ((?:`\w+`(?:, and |, | and )?)+) of `(\w+::[\w:]+)`")
HEAD = re.compile(r"\| *Crate *\| *Function *\| *Clause")
FUNCTIONS = ("1", "its one clause", "1 each")
OTHER_QUESTIONS = "1 of each other question"
QUESTIONS = ("1 of each question", OTHER_QUESTIONS)
TYPES = ("1 each", *QUESTIONS)
NUMBERS = {word: number for number, word in enumerate("one two three four five six seven eight nine ten eleven twelve".split(), 1)}


class Function(NamedTuple):
    """A function. Its owner is the type of its block, or the trait if it is in a trait's own block; `ensures` has names too."""
    owner: str
    trait: str
    name: str
    public: bool
    asks: bool
    empty: bool
    requires: list[str]
    ensures: list[str]


class Row(NamedTuple):
    """A row of a table: where it is, its crates, the paths that it names, and the cells of functions and of clauses."""
    place: str
    crates: list[str]
    paths: list[str]
    function: str
    clauses: str


def quoted(text: str) -> list[str]:
    """What is in backticks."""
    return re.findall(r"`([^`]+)`", text)


def unquoted(text: str) -> str:
    """What isn't in backticks."""
    return re.sub("`[^`]*`", "", text)


# --- the sources


def end_of(tokens: list[str], begin: int) -> int:
    """The place of the brace that closes the one at `begin`."""
    depth = 0
    for place in range(begin, len(tokens)):
        depth += (tokens[place] == "{") - (tokens[place] == "}")
        if depth == 0:
            return place
    return len(tokens)


def owner_of(head: list[str]) -> tuple[str, str]:
    """The type and the trait, if there is one, of a block: what is between `impl` and `{`."""
    depth, outer = 0, []
    for token in head:
        depth += (token == "<") - (token == ">")
        if depth == 0 and re.match(r"\w", token):
            outer.append(token)
    outer = outer[:outer.index("where")] if "where" in outer else outer
    return (outer or [""])[-1], outer[outer.index("for") - 1] if "for" in outer else ""


def read_function(tokens: list[str], begin: int, owner: str, trait: str) -> tuple[Function, int]:
    """The function whose `fn` is at `begin`, and the place behind its body."""
    depth, clauses, place = 0, {"requires": [], "ensures": []}, begin + 2
    while tokens[place] not in ("{", ";") or depth > 0 or tokens[place - 1] == ":":
        token = tokens[place]
        depth += (token in "([") - (token in ")]")
        if token in clauses:
            name = tokens[place + 1]
            clauses[token].append("" if name == "{" else name)
            place += 1 + (name != "{")
        if tokens[place] == "{":
            place = end_of(tokens, place)
        place += 1
    last = end_of(tokens, place) if tokens[place] == "{" else place
    asks = "".join(tokens[begin:place]).partition("(")[2].startswith("&self")
    public = tokens[begin - 1] == "pub" or trait != ""
    return Function(owner, trait, tokens[begin + 1], public, asks, last == place + 1, **clauses), last + 1


def read_block(tokens: list[str], begin: int, end: int, owner: str = "", trait: str = "") -> Iterator[Function]:
    """The functions between two places, outside of bodies."""
    place = begin
    while place < end:
        token = tokens[place]
        if token in ("impl", "trait", "mod"):
            opening = next(each for each in range(place, end) if tokens[each] in ("{", ";"))
            last = end_of(tokens, opening) if tokens[opening] == "{" else opening
            if token == "impl":
                owner, trait = owner_of(tokens[place + 1:opening])
            elif token == "trait":
                owner, trait = tokens[place + 1], tokens[place + 1]
            yield from read_block(tokens, opening + 1, last, owner, trait)
            owner = trait = ""
            place = last + 1
        elif token == "fn" and tokens[place + 1] != "(":
            function, place = read_function(tokens, place, owner, trait)
            yield function
        else:
            place = end_of(tokens, place) + 1 if token == "{" else place + 1


class Sources:
    """The functions of the crates, which are read once."""

    def __init__(self, top: Path) -> None:
        self.top = top
        self.read: dict[str, list[Function]] = {}

    def of(self, crate: str) -> list[Function]:
        """The functions of a crate."""
        if crate not in self.read:
            self.read[crate] = []
            for file in sorted(self.top.glob(f"crates/{crate}/src/**/*.rt")):
                tokens = [token for token in TOKEN.findall(file.read_text(encoding="utf-8")) if not token.startswith("//")]
                self.read[crate] += read_block(tokens, 0, len(tokens))
        return self.read[crate]

    def find(self, path: str) -> list[Function]:
        """What a path names: a function, or all of a type or a trait. Of functions of one name the public ones are meant."""
        crate, *owners, name = path.split("::")
        functions = self.of(crate)
        if is_type(path):
            traits = {each.trait for each in functions if each.owner == name} - {""}
            return [each for each in functions if each.owner == name or each.owner == each.trait and each.owner in traits]
        owner = owners[-1] if owners and is_type(owners[-1]) else ""
        named = [each for each in functions if (each.owner, each.name) == (owner, name)]
        return [each for each in named if each.public] or named

    def theorems(self, crate: str) -> list[str]:
        """The names of a crate's theorems."""
        return [each.name for each in self.of(crate) if each.public and each.empty and each.ensures and not each.owner]


def is_type(path: str) -> bool:
    """Whether a path ends with the name of a type or a trait."""
    return path.rpartition("::")[2][:1].isupper()


# --- the documents


def rows_of(text: str, place: Path, sources: Sources) -> Iterator[Row]:
    """The rows of a document's tables of clauses, in which empty cells and names without a crate are completed."""
    inside, crates, paths, function, above = False, [], [], "", ""
    for number, line in enumerate(text.splitlines(), 1):
        if HEAD.match(line):
            inside, crates, paths, function, above = True, [], [], "", ""
            continue
        inside = inside and line.startswith("|")
        if not inside or line.startswith("|---"):
            continue
        cells = [cell.strip() for cell in line.split("|")[1:]]
        if cells[0]:
            crates, above = quoted(cells[0]), ""
        if cells[1]:
            function = cells[1]
            paths = [path_of(name, crates[0], above, sources) for name in quoted(function)]
            above = next((path for path in reversed(paths) if is_type(path)), above)
        yield Row(f"{place}:{number}", crates, paths, function, cells[2])


def path_of(name: str, crate: str, above: str, sources: Sources) -> str:
    """The path of a name in a table: one without a crate is first looked for in the type above."""
    if "::" in name:
        return name
    return f"{above}::{name}" if above and sources.find(f"{above}::{name}") else f"{crate}::{name}"


class Check:
    """Counts what is as documents say, and has a line for what isn't."""

    def __init__(self, sources: Sources) -> None:
        self.sources = sources
        self.passed = 0
        self.lines: list[str] = []

    def expect(self, holds: bool, line: str) -> None:
        """Counts one thing."""
        self.passed += holds
        self.lines += [] if holds else [line]

    def names(self, place: str, path: str, names: list[str]) -> None:
        """The function, or a public one of the type, has clauses of these names."""
        functions = self.sources.find(path)
        clauses = {name for each in functions if each.public or not is_type(path) for name in each.requires + each.ensures}
        for name in names:
            self.expect(name in clauses, f"{place}: {path} has no clause {name}")

    def unnamed(self, place: str, path: str, functions: list[Function]) -> None:
        """There are such functions, and each has one `ensures`, without a name."""
        if not functions:
            self.expect(False, f"{place}: {path} has no such function")
        for each in functions:
            named = ", ".join(name or "one without a name" for name in each.ensures) or "none"
            whole = f"{path}::{each.name}" if is_type(path) else path
            self.expect(each.ensures == [""], f"{place}: {whole} should have one clause without a name, and has {named}")

    def judge(self, place: str, path: str, words: str, cell: str) -> None:
        """What a list, one of those of the cell, says of a path."""
        functions = [each for each in self.sources.find(path) if each.public and each.ensures or not is_type(path)]
        if words in QUESTIONS:
            functions = [each for each in functions if each.asks]
        if words == OTHER_QUESTIONS:
            functions = [each for each in functions if set(quoted(cell)).isdisjoint(each.ensures)]
        if quoted(words):
            self.names(place, path, quoted(words))
        elif words in (TYPES if is_type(path) else FUNCTIONS):
            self.unnamed(place, path, functions)
        else:
            self.expect(False, f"{place}: {path} can't have the clauses '{words}'")

    def row(self, row: Row) -> None:
        """The clauses of a row."""
        lists = [words.strip() for words in row.clauses.split(";")]
        if len(lists) == len(row.paths):
            pairs = list(zip(row.paths, lists))
        elif 1 in (len(lists), len(row.paths)):
            pairs = [(path, words) for path in row.paths for words in lists]
        else:
            self.expect(False, f"{row.place}: {len(lists)} lists of clauses for {len(row.paths)} names")
            return
        for path, words in pairs:
            found = self.sources.find(path)
            if path.split("::")[0] in row.crates and (len(found) == 1 or found and is_type(path)):
                self.judge(row.place, path, words, row.clauses)
            else:
                self.expect(False, f"{row.place}: {path} isn't there, or more than once")

    def theorems(self, row: Row, named: set[str]) -> None:
        """As many theorems as the row says, besides those that a row names, have one clause without a name."""
        words = re.findall(rf"\b(?:\d+|{'|'.join(NUMBERS)})\b", unquoted(row.function))
        wanted = sum(NUMBERS.get(word) or int(word) for word in words)
        paths = [f"{row.crates[0]}::{name}" for name in self.sources.theorems(row.crates[0])]
        others = [path for path in paths if path not in named]
        self.expect(len(others) == wanted, f"{row.place}: {row.crates[0]} has {len(others)} theorems that no row names, and not {wanted}")
        for path in others:
            self.judge(row.place, path, row.clauses, row.clauses)

    def document(self, text: str, place: Path) -> None:
        """The sentences and the tables of a document."""
        prose = " ".join(re.sub(r"^```.*?^```", "", text, flags=re.DOTALL | re.MULTILINE).split())
        for names, path in sorted(set(SENTENCE.findall(prose))):
            self.names(str(place), path, quoted(names))
        rows = list(rows_of(text, place, self.sources))
        named = {path for row in rows for path in row.paths}
        for row in rows:
            if row.paths:
                self.row(row)
            if "theorem" in unquoted(row.function) or not row.paths:
                self.theorems(row, named)


def main() -> None:
    """Prints what fails, and the counts."""
    if len(sys.argv) > 2 or sys.argv[1:2] == ["-h"]:
        sys.exit("usage: check-clauses.py [TOP]")
    top = Path(sys.argv[1] if len(sys.argv) == 2 else HERE.parent).resolve()
    check = Check(Sources(top))
    for document in (document for pattern in DOCUMENTS for document in sorted(top.glob(pattern))):
        check.document(document.read_text(encoding="utf-8"), document.relative_to(top))
    for line in check.lines:
        print(f"failed: {line}")
    print(f"{check.passed} passed, {len(check.lines)} failed")
    sys.exit(1 if check.lines else 0)


if __name__ == "__main__":
    main()
