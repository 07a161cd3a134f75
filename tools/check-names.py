#!/usr/bin/env python3
"""Checks the names of definitions that documents cite: each is where the document says that it is.

    check-names.py [TOP]        of the project in the folder TOP, or of this one

Definitions are what is in `crates/*/specs`. Two crates may define the same name, since an import says which is meant. Documents name
definitions with their file, as in

    `NAME` in `FILE.antt`     `NAME`, `NAME` and `NAME` in `FILE.antt`     `NAME` (`FILE.antt`)     `NAME`, `FILE.antt`     **`FILE.antt`**, `NAME`

where the path of the file may lack its first folders, and several files may be named. Each of these names has to be in one of them, as a
definition or, in proofs/, as a theorem. A name as `IsRun`, `AreRuns`, `HasRun` or `HaveRun` has to be defined wherever it is cited. The
last line is `N passed, M failed`.
"""
from __future__ import annotations

import collections
import importlib.util
import re
import sys
from pathlib import Path
from typing import Any, Iterator

HERE = Path(__file__).resolve().parent
NAME = r"`[A-Za-z_][\w']*`"
NAMES = rf"{NAME}(?:(?:,| and|, and) {NAME})*"
FILE = r"`[\w/.]+\.antt`"
FILES = rf"{FILE}(?:(?:,| and|, and) {FILE})*"
# Names with their files, in a text without line feeds.
CITED = re.compile(rf"(?P<names>{NAMES})(?: in | \(| \(in |, )(?P<files>{FILES})|\*\*(?P<first>{FILE})\*\*, (?P<behind>{NAMES})")
# What only a definition is called, cited without a file.
STATEMENT = re.compile(r"(?:Is|Are|Has|Have)[A-Z]\w*")
DOCUMENTS = ("*.md", "docs/*.md", "bench/*.md", "examples/README.md", "examples/*/README.md", "examples/*/*/README.md")


def parser() -> Any:
    """The module of count-definitions.py, which reads files of definitions."""
    specification = importlib.util.spec_from_file_location("count_definitions", HERE / "count-definitions.py")
    assert specification and specification.loader
    module = importlib.util.module_from_spec(specification)
    sys.modules[specification.name] = module
    specification.loader.exec_module(module)
    return module


def definitions(top: Path) -> dict[str, list[Path]]:
    """The files in specs/ that define each name, by their paths from the top."""
    read, found = parser(), collections.defaultdict(list)
    for file in sorted(top.glob("crates/*/specs/**/*.antt")):
        for name in read.parse_module("", str(file)).definitions:
            found[name].append(file.relative_to(top))
    return found


def quoted(text: str) -> list[str]:
    """What is in backticks."""
    return re.findall(r"`([^`]+)`", text)


def prose_of(document: Path) -> str:
    """The text of a document in one line. Blocks of code cite nothing."""
    return " ".join(re.sub(r"^```.*?^```", "", document.read_text(encoding="utf-8"), flags=re.DOTALL | re.MULTILINE).split())


def cited(prose: str) -> Iterator[tuple[str, tuple[str, ...]]]:
    """The names of a document, each with the files of which one is said to have it."""
    for found in CITED.finditer(prose):
        for name in quoted(found["names"] or found["behind"]):
            # What is named with the files of a crate is the crate.
            if not name.startswith("pt_"):
                yield name, tuple(quoted(found["files"] or found["first"]))


def files_of(top: Path, path: str) -> list[Path]:
    """The files that a path, which may be cut short, can mean."""
    return [file for start in ("", "crates/", "crates/*/", "crates/*/specs/", "crates/*/proofs/") for file in top.glob(start + path)]


def has(top: Path, file: Path, name: str, places: dict[str, list[Path]]) -> bool:
    """Whether a file defines the name, hands it on, or says it as a theorem."""
    text, word = file.read_text(encoding="utf-8"), re.escape(name)
    if "specs" in file.parts:
        return file.relative_to(top) in places.get(name, []) or re.search(rf"^pub use .*[{{ ]{word}[,}}]", text, re.MULTILINE) is not None
    return re.search(rf"^(?:\w+ )*{word} ", text, re.MULTILINE) is not None


def misplaced(top: Path, places: dict[str, list[Path]]) -> tuple[int, list[str]]:
    """How many names are where their documents say, and a line for each that isn't."""
    passed, lines = 0, []
    for document in (document for pattern in DOCUMENTS for document in sorted(top.glob(pattern))):
        prose, place = prose_of(document), document.relative_to(top)
        statements = {name for name in quoted(prose) if STATEMENT.fullmatch(name)}
        passed += len(statements & places.keys())
        lines += [f"{place} cites {name}, which no file of specs/ defines" for name in sorted(statements - places.keys())]
        for name, paths in sorted(set(cited(prose))):
            if any(has(top, file, name, places) for path in paths for file in files_of(top, path)):
                passed += 1
            else:
                where = ", ".join(map(str, places.get(name, []))) or "no file of specs/"
                lines.append(f"{place} says that {name} is in {' or '.join(paths)}: it is in {where}")
    return passed, lines


def main() -> None:
    """Prints what fails, and the counts."""
    if len(sys.argv) > 2 or sys.argv[1:2] == ["-h"]:
        sys.exit("usage: check-names.py [TOP]")
    top = Path(sys.argv[1] if len(sys.argv) == 2 else HERE.parent).resolve()
    places = definitions(top)
    passed, lines = misplaced(top, places)
    for line in lines:
        print(f"failed: {line}")
    print(f"{passed} passed, {len(lines)} failed")
    sys.exit(1 if lines else 0)


if __name__ == "__main__":
    main()
