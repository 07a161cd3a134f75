#!/usr/bin/env python3
"""Runs the commands that documents show, and compares what they write with what is below them.

    check-transcripts.py PROGRAM DOCUMENT..

In a block of text a line `$ COMMAND` that calls ptides is run by a shell, with PROGRAM instead of the path to ptides: in the document's
folder, or, for README.md and the pages of docs, in a new one with links to what is in the project's folder, so that a command may write
a file. The lines up to the next `$` or the end of the block are its output, standard error at the end; a line `...` means any lines.
Words that only the launcher knows, as companions, go to the launcher, with PROGRAM as the program. The last line is
`N passed, M failed`.
"""
import os
import re
import shlex
import subprocess
import sys
import tempfile
from typing import List, NamedTuple

TOP = os.path.dirname(os.path.dirname(os.path.realpath(__file__)))
LAUNCHER = os.path.join(TOP, "ptides")
# A path to ptides, folders to go to first, and the next word.
PTIDES = re.compile(r"(?<!\S)(?:\./|(?:\.\./)+)ptides(?P<folders>(?: -C \S+)*)(?= (?P<word>\S+))")
COMMANDS = {"run", "check", "meaning", "make", "migrate", "slacks", "audit", "replay"}


class Transcript(NamedTuple):
    """A command, and the lines below it."""
    command: str
    wanted: List[str]


def transcripts(text: str) -> List[Transcript]:
    """The commands of a document's blocks that call ptides."""
    inside, found, current = False, [], None
    for line in text.split("\n"):
        if line.startswith("```"):
            inside = not inside and line == "```text"
            current = None
        elif inside and line.startswith("$ "):
            current = Transcript(line[2:], [])
            found.append(current)
        elif inside and current:
            current.wanted.append(line)
    return [each for each in found if PTIDES.search(each.command)]


def placed(command: str, program: str) -> str:
    """The command with the program put in. Its path may have any characters, so the shell is given it in quotes."""

    def call(found: "re.Match[str]") -> str:
        folders = found["folders"]
        if os.path.realpath(program) == LAUNCHER:
            return shlex.quote(program) + folders
        if found["word"] not in COMMANDS:
            return f"env PTIDES={shlex.quote(program)} {shlex.quote(LAUNCHER)}{folders}"
        return (f"env{folders} " if folders else "") + shlex.quote(program)

    return PTIDES.sub(call, command)


def agrees(wanted: List[str], lines: List[str]) -> bool:
    """Whether the lines are the wanted ones, in which `...` means any lines."""
    pattern = "".join("(?:.*\n)*?" if line == "..." else re.escape(line) + "\n" for line in wanted)
    return re.fullmatch(pattern, "".join(line + "\n" for line in lines)) is not None


def lines_of(command: str, folder: str) -> List[str]:
    """What a command writes in a folder."""
    done = subprocess.run(["sh", "-c", command], cwd=folder, stdin=subprocess.DEVNULL, capture_output=True, check=False)
    return (done.stdout + done.stderr).decode("utf-8", "replace").split("\n")[:-1]


def check(document: str, program: str, linked: str) -> List[bool]:
    """Whether each command of a document writes what is shown. Commands that are typed in the project's folder are run in `linked`."""
    with open(document, encoding="utf-8") as file:
        text = file.read()
    folder, found = os.path.dirname(document), []
    for command, wanted in transcripts(text):
        lines = lines_of(placed(command, program), linked if folder in ("", "docs") else folder)
        found.append(agrees(wanted, lines))
        if not found[-1]:
            print(f"failed: {document}: {command} writes", *lines[:20], sep="\n    ")
    return found


def main() -> None:
    """Prints what fails, and the counts."""
    if len(sys.argv) < 2:
        sys.exit("usage: check-transcripts.py PROGRAM DOCUMENT..")
    found = []
    for document in sys.argv[2:]:
        with tempfile.TemporaryDirectory() as linked:
            for name in os.listdir(TOP):
                os.symlink(os.path.join(TOP, name), os.path.join(linked, name))
            found += check(document, os.path.abspath(sys.argv[1]), linked)
    print(f"{found.count(True)} passed, {found.count(False)} failed")


if __name__ == "__main__":
    main()
