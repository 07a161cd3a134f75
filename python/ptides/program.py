"""The program `ptides`: finds the one that this package belongs to, runs it, and gives what it answers.

A call whose answer isn't wanted raises `Refused`, with the status, the line and the place that the line names:

    >>> from ptides import program
    >>> program.place_of("graph: unknown at wire 3")
    'wire 3'
"""
from __future__ import annotations

import os
import re
import shutil
import subprocess
from pathlib import Path
from typing import Collection, NamedTuple, Optional, Sequence, Union

COMMANDS = ("run", "check", "meaning", "make", "migrate", "slacks", "audit", "replay")
PACKAGE = Path(__file__).resolve().parent
# What a wheel has of an installation.
IN_WHEEL = PACKAGE / "prefix" / "lib" / "ptides"
# The folder of the checkout or of the installation, which has the launcher `ptides`.
HOME = IN_WHEEL if IN_WHEEL.is_dir() else PACKAGE.parents[1]
# A graph has at most 1 MiB; this much of a longer file shows that it is too long. A device may have no end.
MOST_GRAPH = 1 << 21

# What each line is about: the first form that fits a line gives its place.
PLACES = [(re.compile(form), place) for form, place in [
    (r"blocks: (line \d+(?: column \d+)?):", r"blocks \1"),
    (r"read fault: blocks", "blocks"),
    (r"graph: .* at (top|(?:platform|actor|wire|link|clock error) \d+)", r"\1"),
    (r"graph: unfed (actor \d+ input \d+)", r"\1"),
    (r"graph: infeasible (\w+),", r"actor \1"),
    (r"graph: (?:cycle|ring) (\w+)", r"actor \1"),
    (r"sensor (\w+): .* at row (\d+)", r"sensor \1 row \2"),
    (r"(?:read fault: )?sensor (\w+)", r"sensor \1"),
    (r"late .*, air row (\d+)", r"air row \1"),
    (r"late (\w+) row (\d+),", r"sensor \1 row \2"),
    (r"late (\w+) at ", r"actor \1"),
    (r"missed (\w+) at ", r"actor \1"),
    (r"air: .* at row (\d+)", r"air row \1"),
    (r"unlawful: .* at line (\d+)", r"log line \1"),
    (r"long (\w+)", r"platform \1"),
]]


class Fault(Exception):
    """What a user is told in one line, and the status with which a companion ends then."""

    status = 1


class NoProgram(Fault):
    """There is no program, or it can't be started."""


class Refused(Fault):
    """The program ended with a status that wasn't wanted: `status`, its first `line`, all its `notes`, and the `place` in the line.

    `explanation` is what `ptides explain` shows of the line, if it was asked. Then it is the text of the exception.
    """

    def __init__(self, done: "Done", explanation: str = ""):
        super().__init__(explanation or done.line or f"the program ended with status {done.status}")
        self.explanation = explanation
        self.status, self.line, self.notes, self.place = done.status, done.line, done.notes, place_of(done.line)


class Done(NamedTuple):
    """How a call ended: its status, its standard output and its standard error. Below 0 the status is a signal's number."""

    status: int
    output: str
    notes: str

    @property
    def line(self) -> str:
        """The first line of the notes, or nothing."""
        return self.notes.split("\n", 1)[0]


def place_of(line: str) -> str:
    """The part of the files that a line of the program is about, as `wire 3` or `sensor speed row 2`; nothing if it names none."""
    for form, place in PLACES:
        found = form.match(line)
        if found:
            return found.expand(place)
    return ""


def is_program(path: Path) -> bool:
    """Whether this is a file that can be run."""
    return path.is_file() and os.access(path, os.X_OK)


def find_program(must_exist: bool = True) -> str:
    """The program: PTIDES of the environment, else the one of this checkout or installation, else one on the path.

    The path that it gives is valid from any folder. If the program is to run on another machine, it need not exist on this one.
    """
    named = os.environ.get("PTIDES", "")
    if not named and is_program(HOME / "ptides"):
        return str(HOME / "ptides")
    found = shutil.which(named or "ptides")
    if found is None and must_exist:
        raise NoProgram(f"there is no program {named}" if named else "there is no program ptides; PTIDES names one")
    return os.path.abspath(found) if found else named or "ptides"


def version() -> str:
    """The version of this checkout or installation; nothing if it isn't known."""
    for name in ("VERSION", "version"):
        try:
            return (HOME / name).read_text(encoding="utf-8").split("\n", 1)[0].split(" ")[-1]
        except OSError:
            pass
    return ""


def run(words: Sequence[str], *, folder: Optional[Union[str, Path]] = None, given: Optional[Union[str, bytes]] = None,
        seconds: Optional[float] = None, keep_output: bool = True, program: Optional[str] = None) -> Done:
    """Runs the program with these words, whatever its status.

    `folder` is where it runs, `given` its standard input, `seconds` the longest time for it (then `subprocess.TimeoutExpired` is
    raised). `program` is another one than `find_program` gives. Bytes that aren't UTF-8 are kept as surrogates.
    """
    command = [program or find_program(), *words]
    data = given.encode("utf-8", "surrogateescape") if isinstance(given, str) else given
    output = subprocess.PIPE if keep_output else subprocess.DEVNULL
    source = {"stdin": subprocess.DEVNULL} if data is None else {"input": data}
    try:
        done = subprocess.run(command, cwd=folder, stdout=output, stderr=subprocess.PIPE, check=False, timeout=seconds, **source)
    except OSError as fault:
        raise NoProgram(f"cannot run {command[0]}{f' in {folder}' if folder else ''}: {fault.strerror}") from fault
    return Done(done.returncode, *((text or b"").decode("utf-8", "surrogateescape") for text in (done.stdout, done.stderr)))


def ask(words: Sequence[str], *, accepted: Collection[int] = (0,), folder: Optional[Union[str, Path]] = None,
        given: Optional[Union[str, bytes]] = None) -> Done:
    """As `run`, but another status than the accepted ones raises `Refused`."""
    done = run(words, folder=folder, given=given)
    if done.status not in accepted:
        raise Refused(done)
    return done
