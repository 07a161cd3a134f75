"""What the companions `ptides NAME` have in common: words, files, and one clear line if something is wrong.

A companion is a script `tools/ptides-NAME` with a function `parser`, from which its manual page and its completion are made, and a
function `main`, which gives its status:

    companion.start("NAME", main)
"""
from __future__ import annotations

import argparse
import importlib
import os
import platform
import shlex
import sys
import textwrap
from pathlib import Path
from typing import Any, Callable, NoReturn, Union

from ptides import program
from ptides.program import Fault, Refused

# The Python of Debian's packages.
DEBIANS = "/usr/bin/python3"


class Formatter(argparse.RawDescriptionHelpFormatter):
    """Fills paragraphs to the width of the terminal; lines that begin with spaces, as of examples, stay lines."""

    def _fill_text(self, text: str, width: int, indent: str) -> str:
        return "\n".join(filled(line, width) for line in joined(text))


def joined(text: str) -> list[str]:
    """The paragraphs of a text, each in one line, and so the items of a list; other lines that begin with spaces stay lines."""
    found: list[str] = []
    for line in text.strip("\n").split("\n"):
        is_plain = line and not line.startswith(" ")
        if found and is_plain and found[-1] and not found[-1].startswith(" ") or found and line.startswith("    ") and found[-1].startswith("  - "):
            found[-1] += " " + line.strip()
        else:
            found.append(line.rstrip())
    return found


def filled(line: str, width: int) -> str:
    """A line, cut into as many as the width needs; what follows is set further in, if the line is."""
    spaces = line[:len(line) - len(line.lstrip())]
    return line if not line.strip() else textwrap.fill(line, max(width, 40), subsequent_indent=spaces and spaces + "    ", break_long_words=False, break_on_hyphens=False)


class Parser(argparse.ArgumentParser):
    """The words of a companion: `-h`, `--version`, and a `Fault` if they are wrong."""

    def __init__(self, prog: str, **options: Any) -> None:
        options.setdefault("formatter_class", Formatter)
        super().__init__(prog=prog, **options)

    def error(self, message: str) -> NoReturn:
        """Wrong words are one line."""
        raise Fault(message)


def checked(of: Callable[[str], Any]) -> Callable[[str], Any]:
    """The reading of an option's word, whose faults are those of the option."""
    def read(text: str) -> Any:
        try:
            return of(text)
        except Fault as fault:
            raise argparse.ArgumentTypeError(str(fault)) from fault

    return read


def parser(name: str, description: str, epilog: str, **options: Any) -> Parser:
    """The parser of the companion of that name, with `--version`."""
    found = Parser(prog=f"ptides {name}", description=description, epilog=epilog, **options)
    found.add_argument("--version", action="version", version=f"ptides {name} {program.version() or 'of an unknown version'}")
    return found


def read(path: Union[str, Path], most: int = program.MOST_GRAPH) -> bytes:
    """A file, or its first bytes up to `most`: a device may have no end."""
    try:
        with open(path, "rb") as file:
            return file.read(most)
    except OSError as fault:
        raise Fault(f"cannot read {path}: {fault.strerror}") from fault
    except ValueError as fault:
        # A path with a zero byte.
        raise Fault(f"cannot read {path!r}: {fault}") from fault


def write(path: Union[str, Path], text: str) -> None:
    """Writes a file, or the standard output if the path is `-`."""
    try:
        data = text.encode("utf-8", "surrogateescape")
        with open(1, "wb", closefd=False) if path == "-" else open(path, "wb") as file:
            file.write(data)
    except BrokenPipeError:
        raise
    except OSError as fault:
        raise Fault(f"cannot write {'standard output' if path == '-' else path}: {fault.strerror}") from fault


def needed(module: str, package: str, by: str) -> Any:
    """A module that isn't in the standard library, for the option or kind `by`; `package` is Debian's."""
    try:
        return importlib.import_module(module)
    except ImportError as fault:
        script = shlex.quote(sys.argv[0])
        other = "" if sys.executable == DEBIANS else f", and it is for Debian's Python: {DEBIANS} {script} .."
        raise Fault(f"{by} needs the module {module}, which this Python, {sys.executable} ({platform.python_version()}), doesn't have "
                    f"(Debian: apt-get install {package}{other})") from fault


def say(line: str) -> None:
    """A line on standard error."""
    sys.stderr.write(line.encode("utf-8", "replace").decode("utf-8") + "\n")


def drop_output() -> None:
    """What is left in the buffer of the standard output goes nowhere, so that no second fault follows at the end."""
    os.dup2(os.open(os.devnull, os.O_WRONLY), 1)


def answer(name: str, main: Callable[[], int]) -> int:
    """The status of `main`; what is wrong is one line on standard error, and of a refusal the notes of the program."""
    try:
        for stream in (sys.stdout, sys.stderr):
            stream.reconfigure(encoding="utf-8", errors="replace")
        try:
            return main()
        finally:
            sys.stdout.flush()
    except KeyboardInterrupt:
        return 130
    except Refused as refused:
        sys.stderr.write(refused.notes or f"ptides {name}: {refused}\n")
        return refused.status
    except Fault as fault:
        say(f"ptides {name}: {fault}")
        return fault.status
    except BrokenPipeError:
        # What reads the output may end before it.
        drop_output()
        return 1
    except OSError as fault:
        drop_output()
        say(f"ptides {name}: {fault.filename or 'cannot write standard output'}: {fault.strerror}")
        return 1


def start(name: str, main: Callable[[], int]) -> NoReturn:
    """Runs a companion, and ends with its status."""
    sys.exit(answer(name, main))
