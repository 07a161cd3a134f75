"""The words of the command line, and files that can't be read."""
from __future__ import annotations

import difflib
import os
import re
import shlex
from pathlib import Path
from typing import Callable, Optional

from ptides import limits
from ptides.explain.findings import Finding, Source, Spot, a, near
from ptides.explain.graph import Graph
from ptides.formulas.option import VALUED, is_file

CLOCKS = "`paced`, `machine` or `step:START:STEP` in microseconds, as `step:0:1`, START from 0 and STEP from 1, to 10^15"
COMMANDS = {"run": ["--workers", "--clock", "--log", "--claims", "--blocks"], "check": ["--blocks"], "meaning": ["--claims", "--blocks"], "make": ["--workers"],
            "migrate": ["--blocks"], "slacks": ["--blocks"], "audit": ["--claims", "--blocks"], "replay": ["--workers", "--log", "--claims", "--blocks"]}


def plain_words(words: list[str]) -> list[str]:
    """The words that are no options and no values of options."""
    values = {index + 1 for index, word in enumerate(words) if word in VALUED}
    return [word for index, word in enumerate(words) if index not in values and (word == "-" or not word.startswith("-"))]


def words_of(arguments: list[str]) -> tuple[list[str], str]:
    """The words for the program, and the one of them that names the graph."""
    alone = plain_words(arguments)
    if alone and (arguments[0] in COMMANDS or len(alone) > 1):
        return arguments, "".join(alone[1:2])
    return (["run", *arguments] if alone else arguments), "".join(alone[:1])


def at_word(words: list[str], index: int, label: str, expected: str, *helps: str) -> Finding:
    """A finding at a word of the command line, or at its end."""
    quoted = [shlex.quote(word) for word in ["ptides", *words]]
    start = sum(len(word) + 1 for word in quoted[:index + 1])
    length = len(quoted[index + 1]) if index < len(words) else 1
    return Finding(Spot(Source("the command line", " ".join(quoted)), start, start + length, label), expected, list(helps))


def is_clock(value: str) -> bool:
    """Whether this is a value of `--clock`."""
    numbers = re.fullmatch("step:(0|[1-9][0-9]{0,15}):([1-9][0-9]{0,15})", value)
    return value in ("paced", "machine") or numbers is not None and all(int(number) <= 10 ** 15 for number in numbers.groups())


# What is a value of each option, and how it is said.
VALUES: dict[str, tuple[Callable[[str], bool], str]] = {
    "--workers": (lambda value: re.fullmatch("[1-9]|[1-5][0-9]|6[0-4]", value) is not None, "a number from 1 to 64, as 4"),
    "--clock": (is_clock, CLOCKS), "--claims": (limits.is_number, f"a number from {limits.USUAL_CLAIMS} to {limits.MOST_CLAIMS}, as 4000000"),
    "--blocks": (bool, "the path of a file of formulas; after `=` it may begin with `-`")}


def usage(words: list[str]) -> Finding:
    """The word that isn't allowed at its place."""
    if words[0] not in COMMANDS:
        return at_word(words, 0, f"this is no command{near(words[0], list(COMMANDS))}", f"a command first: {', '.join(COMMANDS)}")
    command, allowed, places, seen, index = words[0], COMMANDS[words[0]], [], [], 1
    options = f"options of `{command}`: {', '.join(allowed) or 'none'}, each at most once"
    while index < len(words):
        option, equals, value = words[index].partition("=")
        if "--" in words[1:index] or not option.startswith("-") or words[index] == "-":
            places.append(index)
        elif option != "--" and option not in allowed:
            return at_word(words, index, f"`{command}` has no option `{option}`{near(option, allowed)}", options)
        elif option in seen or option == "--log" and equals:
            return at_word(words, index, f"`{option}` is there already" if option in seen else "`--log` takes no value", options)
        elif option in VALUED:
            index, value = (index, value) if equals else (index + 1, "".join(words[index + 1:index + 2]))
            is_value, wanted = VALUES[option]
            if not is_value(value) or option == "--blocks" and not is_file(value, bool(equals)):
                return at_word(words, index, f"no value of `{option}`", f"`{option}` takes {wanted}")
        seen.append(option)
        index += 1
    what = {"make": ["a number from 1 to 100"], "audit": ["the path of a graph", "the path of a log"],
            "replay": ["the path of a graph", "the path of an air file"]}.get(command, ["the path of a graph"])
    # A path isn't empty.
    wrong = next((number for number, place in enumerate(places[:len(what)]) if len(what) == 1 or not words[place]), 0)
    label = ("a word too many" if len(places) > len(what) else f"{what[len(places)]} is missing" if len(places) < len(what)
             else f"this isn't {what[wrong]}")
    index = len(words) if len(places) < len(what) else places[len(what) if len(places) > len(what) else wrong]
    return at_word(words, index, label, f"`{command}` takes {' and '.join(what)}, and options")


def read_fault(graph: Optional[Graph], words: list[str], path: str, sensor: str, what: str = "graph") -> Finding:
    """A file that can't be read: its path, and the folder that it was looked up from."""
    node = graph.actor(sensor).get("file") if graph else None
    wanted, beside = Path(node.text() if node else path), Path(path).parent
    folder, is_there = wanted.parent, wanted.exists()
    names = [each.name for each in folder.iterdir()] if folder.is_dir() and not is_there else []
    better = "".join(f"did you mean `{folder / each}`?" for each in difflib.get_close_matches(wanted.name, names, 1, 0.5))
    if not folder.is_dir() or (wanted / "graph.json").is_file():
        better = f"did you mean `{wanted / 'graph.json'}`?" if folder.is_dir() else f"there is no folder `{folder}`"
    if node and str(beside) != "." and (beside / wanted).is_file():
        command = f"ptides -C {shlex.quote(str(beside))} {words[0]} {Path(path).name}"
        better = f"it is beside the graph, and paths are looked up from the current folder: {command}"
    label = "this is a folder" if wanted.is_dir() else "this file can't be read: has this user the right to?" if is_there else "no such file"
    label += f"; looked up from {os.getcwd()}"
    if graph is None or node is None:
        return at_word(words, words.index(path), label, f"the path of {a(what, '')}, from the current folder", better)
    return graph.found(node, label, "the path of a sensor file, from the current folder", better)
