"""Files of formulas that are refused, and names of blocks that are nowhere."""
from __future__ import annotations

import difflib
import os
import shlex
from pathlib import Path
from typing import Optional

from ptides.explain.command_line import at_word
from ptides.explain.findings import Finding, Source, Spot, a, listed, near
from ptides.explain.formulas import expected_of, helps_of
from ptides.explain.graph import Graph
from ptides.explain.json_text import Node
from ptides.formulas.file import IN_NAME, MOST_BLOCKS, MOST_BYTES, SHIPPED, Refusal, formula_of, formulas_of, lines_of
from ptides.formulas.option import BlocksFile, file_in, formulas_in, place_in
from ptides.formulas.words import WORD, LineFault, Word

# Commands that need the file of an earlier run.
OF_A_RUN = ("audit", "replay")
# How many files of formulas beside a graph are looked at.
MOST_BESIDE = 20


def blocks_fault(line: str, words: list[str], path: str) -> Optional[Finding]:
    """What is wrong with a file of formulas; nothing if it has another fault now."""
    file = file_in(words)
    if file is None:
        return None
    if line == "read fault: blocks":
        return unreadable(file, words, path)
    data = file.read()
    try:
        formulas_of(data)
    except Refusal as refusal:
        return finding_of(Lines(file.name, data), refusal) if str(refusal) == line else None
    return None


def unreadable(file: BlocksFile, words: list[str], path: str) -> Finding:
    """A file that can't be read: the word that names it, and the folder from which it was looked up."""
    wanted = Path(file.name)
    label = "this is a folder" if wanted.is_dir() else "this file can't be read: has this user the right to?" if wanted.exists() else "no such file"
    beside = Path(path).parent / wanted.name
    names = [each.name for each in wanted.parent.iterdir() if each.is_file()] if wanted.parent.is_dir() and not wanted.is_file() else []
    close = difflib.get_close_matches(wanted.name, names, 1, 0.5)
    better = f"did you mean `{wanted.parent / close[0]}`?" if close else "" if wanted.parent.is_dir() else f"there is no folder `{wanted.parent}`"
    if not wanted.exists() and beside.is_file():
        better = f"it is beside the graph: `--blocks {shlex.quote(str(beside))}`"
    return at_word(words, place_in(words)[0], f"{label}; looked up from {os.getcwd()}", "the path of a file of formulas, from the current folder", better)


class Lines:
    """A file of formulas as text. Its places count bytes of a line, and those of a text count characters."""

    def __init__(self, name: str, data: bytes):
        self.data, self.lines = data, data.split(b"\n")
        self.source = Source(name, data.decode("utf-8", "replace"))

    def spot(self, line: int, start: int, end: int, label: str) -> Spot:
        """A part of a line, which counts from 1; the bytes count from 0."""
        first = sum(len(each.decode("utf-8", "replace")) + 1 for each in self.lines[:line - 1])
        begin, stop = (first + len(self.lines[line - 1][:at].decode("utf-8", "replace")) for at in (start, end))
        return Spot(self.source, begin, max(stop, begin + 1), label)

    def plain(self, line: int) -> str:
        """A line in which each byte is a character."""
        return self.lines[line - 1].decode("latin-1")

    def name(self, line: int, label: str) -> Spot:
        """The name in a line."""
        text = self.plain(line)
        start = len(text) - len(text.lstrip(" \t\r"))
        return self.spot(line, start, WORD.match(text, start).end(), label)

    def length(self, refusal: Refusal, start: int) -> int:
        """How many bytes the word at the place of a refusal has, or the character."""
        match = (IN_NAME if refusal.what == "no name" else WORD).match(self.plain(refusal.line), start)
        return match.end() - start if match and match[0] else end_of(self.lines[refusal.line - 1][start:])


def finding_of(lines: Lines, refusal: Refusal) -> Finding:
    """What a refusal means."""
    if not refusal.line:
        last = len(lines.data[:MOST_BYTES].decode("utf-8", "ignore"))
        return Finding(Spot(lines.source, last, last + 1, "past the limit"), f"at most {MOST_BYTES:,} bytes", ["comments count too: shorten them"])
    if not refusal.column:
        return at_name(lines, refusal)
    start = refusal.column - 1
    here = lines.spot(refusal.line, start, start + lines.length(refusal, start), label_of(refusal.what, at_end(lines, refusal)))
    notes = [lines.spot(refusal.line, refusal.about.start, refusal.about.end, about_of(refusal.what, refusal.about))] if refusal.about else []
    return Finding(here, expected_of(refusal.what), helps_of(lines.plain(refusal.line), refusal, known_names(lines.data)), notes)


def end_of(rest: bytes) -> int:
    """How many bytes the first character of these has."""
    for length in range(1, 5):
        try:
            rest[:length].decode("utf-8")
            return length
        except UnicodeDecodeError:
            pass
    return 1


def at_end(lines: Lines, refusal: Refusal) -> bool:
    """Whether the place of a refusal is the end of its line."""
    return refusal.column > len(lines.lines[refusal.line - 1])


def label_of(what: str, is_end: bool) -> str:
    """What is said at the place."""
    return f"{what}: the line ends here" if is_end else what


def about_of(what: str, word: Word) -> str:
    """What is said of the earlier word."""
    opened = "this `(`" if word.text == "(" else "this call"
    return {"tests in a row": "the test before it", "( without )": f"{opened} is open", ", outside a call": "this `(` is no call"}.get(
        what, "the call" if " takes " in what else f"after this `{word.text}`")


def known_names(data: bytes) -> list[str]:
    """The names of the lines that can be read, and those of the program: a formula can't use them."""
    found = list(SHIPPED)
    for number, line in enumerate(data.decode("latin-1").split("\n"), 1):
        try:
            formula = formula_of(line, number)
        except LineFault:
            continue
        found += [formula.name] if formula else []
    return found


def at_name(lines: Lines, refusal: Refusal) -> Finding:
    """A name that is there already, or one for which there is no room."""
    if refusal.what == "repeated name":
        if not refusal.earlier:
            here = lines.name(refusal.line, "the program has a block of this name")
            return Finding(here, f"another name than {listed(list(SHIPPED))}",
                           [f"write `my_{here.source.text[here.start:here.end]}`, and the same wherever the graph names it"])
        return Finding(lines.name(refusal.line, "a formula of this name is there already"), "each name once",
                       ["give one of the two another name, also where the graph names it"], [lines.name(refusal.earlier, "the earlier one")])
    total = sum(1 for _ in lines_of(lines.data))
    most = MOST_BLOCKS - len(SHIPPED)
    return Finding(lines.name(refusal.line, f"formula {most + 1} of {total}"), f"at most {MOST_BLOCKS} blocks: {most} formulas beside {listed(list(SHIPPED))}",
                   ["remove those that the graph doesn't use: `ptides lint` names them"])


# ---- names that are nowhere ---------------------------------------------------------------------------------------------


def no_block(graph: Graph, node: Node, words: list[str]) -> Optional[Finding]:
    """The name that no block has; all other such names of the graph follow."""
    pool = [*SHIPPED, *graph.formulas]
    missing = [leaf for actor in graph.actors for _, leaf, form in graph.leaves("actor", actor) if form.pool == "block" and leaf.text() not in pool]
    here = next((leaf for leaf in missing if node.start <= leaf.start < node.end), None)
    if here is None:
        return None
    others = [name for name in dict.fromkeys(leaf.text() for leaf in missing) if name != here.text()]
    other = next((f"; {a(what, '')} has it" for what, names in (("actor", graph.names), ("platform", [each.text() for each in graph.parts["platform"]]))
                  if here.text() in names), "")
    helps = [f"{listed(others)} {'is' if len(others) == 1 else 'are'} nowhere either"] if others else []
    return graph.found(here, f"no block has this name{other}{near(here.text(), pool)}", f"one of {listed(pool)}", *helps,
                      source_of(graph, words, [here.text(), *others]))


def file_beside(graph: Graph, names: list[str]) -> str:
    """The file of formulas beside the graph that has all these names, if there is one; nothing if there are several."""
    beside = sorted(Path(graph.source.name).parent.glob("*.blocks"))[:MOST_BESIDE]
    found = [path for path in beside if set(names) <= set(formulas_in(BlocksFile(str(path), str(path))))]
    return shlex.quote(str(found[0])) if len(found) == 1 else ""


def source_of(graph: Graph, words: list[str], missing: list[str]) -> str:
    """Where blocks come from."""
    names = "these names" if missing[1:] else "this name"
    beside = "" if graph.blocks else file_beside(graph, missing)
    of_a_run = f"; a {'log' if words[0] == 'audit' else 'recording'} doesn't name the file that the run had" if words[:1] and words[0] in OF_A_RUN else ""
    if beside:
        return f"the file beside the graph has {names}: `--blocks {beside}`{of_a_run}"
    if graph.blocks:
        return f"add a line for {names} to the file of --blocks, or correct it in the graph"
    if of_a_run:
        return f"if the run had a file of formulas, give the same one: `--blocks FILE`{of_a_run}"
    return f"a file of formulas defines blocks of your own: give the one that has {names} as `--blocks FILE` (docs/FORMULAS.md)"
