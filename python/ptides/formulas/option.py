"""The option `--blocks FILE` of commands and companions, and `blocks=` of `import ptides`."""
from __future__ import annotations

import argparse
import atexit
import os
import tempfile
from contextlib import ExitStack, contextmanager
from dataclasses import dataclass
from pathlib import Path
from typing import Any, Iterator, Mapping, Optional, Sequence, Union

from ptides.files import readable
from ptides.formulas.file import MOST_BYTES, Formula, formulas_of
from ptides.program import COMMANDS, Fault

# The options whose value may be the next word.
VALUED = ("--workers", "--clock", "--claims", "--blocks")
# Files that can be read only once are kept here until the end.
KEPT = ExitStack()
atexit.register(KEPT.close)


@dataclass(frozen=True)
class BlocksFile:
    """A file of formulas: its path, for the program, and what the user calls it."""

    path: str
    name: str

    @property
    def words(self) -> list[str]:
        """The option as words. In one word the path may begin with `-`."""
        return [f"--blocks={self.path}"]

    def read(self) -> bytes:
        """Its first bytes: enough to see that it is too long."""
        try:
            with open(self.path, "rb") as file:
                return file.read(MOST_BYTES + 1)
        except (OSError, ValueError) as fault:
            raise Fault(f"cannot read {self.name}: {getattr(fault, 'strerror', '') or fault}") from fault

    def formulas(self) -> list[Formula]:
        """Its formulas."""
        return formulas_of(self.read())


# What a program may give for a file of formulas: its path, its text as bytes, or formulas by their names.
Blocks = Union[None, str, os.PathLike, bytes, Mapping[str, str], BlocksFile]


def words_of(blocks: Optional[BlocksFile]) -> list[str]:
    """The option as words; none, if there is no file."""
    return blocks.words if blocks else []


def formulas_in(blocks: Optional[BlocksFile]) -> dict[str, Formula]:
    """The formulas of a file by their names; none, if there is no file or the program doesn't take it either."""
    try:
        return {formula.name: formula for formula in blocks.formulas()} if blocks else {}
    except Fault:
        return {}


# ---- words --------------------------------------------------------------------------------------------------------------


def place_in(words: Sequence[str]) -> Optional[tuple[int, str]]:
    """Where the words of a command name a file of formulas, and the file; nothing, if they name none."""
    is_value = False
    for index, word in enumerate(words[1:], 1):
        if is_value:
            is_value = False
        elif word == "--":
            break
        elif word == "--blocks":
            file = "".join(words[index + 1:index + 2])
            return (index + 1, file) if is_file(file, False) else None
        elif word.startswith("--blocks="):
            return (index, word[9:]) if word[9:] else None
        else:
            is_value = word in VALUED
    return None


def is_file(file: str, in_one_word: bool) -> bool:
    """Whether the program takes this as the file of the option."""
    return bool(file) and (in_one_word or file == "-" or not file.startswith("-"))


def file_in(words: Sequence[str]) -> Optional[BlocksFile]:
    """The file of formulas that the words of a command name."""
    found = place_in(words)
    return BlocksFile(found[1], found[1]) if found and words[0] in COMMANDS and words[0] != "make" else None


def lasting_words(words: Sequence[str]) -> tuple[list[str], Optional[BlocksFile]]:
    """The words of a command with a file of formulas that can be read again, and that file."""
    file, found = file_in(words), place_in(words)
    if file is None or found is None:
        return list(words), None
    kept = lasting(file.name)
    word = kept.path if words[found[0]] == file.name else f"--blocks={kept.path}"
    return [*words[:found[0]], word, *words[found[0] + 1:]], kept


def lasting(file: str) -> BlocksFile:
    """The file as one that can be read again. A pipe can be read only once, and a device may be another one for the program."""
    path = Path(file)
    if path.is_file() and not file.startswith(("/dev/", "/proc/")) or not path.exists() or path.is_dir():
        return BlocksFile(file, file)
    return KEPT.enter_context(kept(BlocksFile(file, file).read(), file))


def file_of(text: str) -> BlocksFile:
    """The value of a companion's option."""
    if not text:
        raise argparse.ArgumentTypeError("the path of a file is missing")
    try:
        readable(text)
        return lasting(text)
    except Fault as fault:
        raise argparse.ArgumentTypeError(str(fault)) from fault


def add_blocks(parser: argparse.ArgumentParser, what: str = "a file of formulas: its names are blocks, as for `ptides run`") -> None:
    """The option of a companion."""
    parser.add_argument("--blocks", type=file_of, metavar="FILE", help=what)


# ---- what a program gives -----------------------------------------------------------------------------------------------


@contextmanager
def kept(data: bytes, name: str) -> Iterator[BlocksFile]:
    """A file with these bytes, which is removed afterwards."""
    with tempfile.TemporaryDirectory(prefix="ptides-") as work:
        path = Path(work, "formulas")
        path.write_bytes(data)
        yield BlocksFile(str(path), name)


@contextmanager
def blocks_file(blocks: Blocks) -> Iterator[Optional[BlocksFile]]:
    """The file of what a program gives for formulas: a copy, so that all that follows sees the same bytes."""
    if blocks is None:
        yield None
        return
    with kept(*data_of(blocks)) as file:
        yield file


def data_of(blocks: Any) -> tuple[bytes, str]:
    """The text of what a program gives for formulas, and what the user calls it."""
    if isinstance(blocks, BlocksFile):
        return blocks.read(), blocks.name
    if isinstance(blocks, bytes):
        return blocks, "blocks"
    if isinstance(blocks, Mapping):
        return "".join(line_of(name, formula) for name, formula in blocks.items()).encode("utf-8", "surrogateescape"), "blocks"
    if not isinstance(blocks, (str, os.PathLike)):
        raise Fault(f"blocks: {type(blocks).__name__} is no path, no dict of formulas by their names, and no bytes")
    name = os.fspath(blocks)
    return BlocksFile(readable(name, "blocks"), str(name)).read(), str(name)


def line_of(name: Any, formula: Any) -> str:
    """A formula as a line."""
    if not isinstance(name, str) or not isinstance(formula, str) or "\n" in name + formula:
        raise Fault(f"blocks: {name!r}: a formula and its name are each a text of one line")
    return f"{name} = {formula}\n"
