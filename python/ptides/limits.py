"""How much a run may do, and how long its files may be: all of it follows from how many claims a platform may make.

    >>> rows_limit(), rows_limit(4_000_000)
    (100000, 4000000)
    >>> words_of(4_000_000)
    ['--claims', '4000000']
"""
from __future__ import annotations

import argparse
import re
from operator import index
from typing import Any, Optional, Sequence

from ptides.program import Fault

# How many claims a platform may make without the option, and with the greatest number that it takes.
USUAL_CLAIMS, MOST_CLAIMS = 200_000, 100_000_000
# The limits of files up to the usual number of claims.
USUAL_ROWS, USUAL_FILE_BYTES, USUAL_LOG_BYTES = 100_000, 1 << 23, 1 << 26
# Above that, how many bytes of a sensor or air file, and of a log, there may be for each claim.
FILE_BYTES, LOG_BYTES = 64, 1024
# The commands that take the option.
COMMANDS = ("run", "meaning", "replay", "audit")
# How many bytes a run keeps of a firing, at least and at most.
KEPT_BYTES = (50, 113)


def rows_limit(claims: int = USUAL_CLAIMS) -> int:
    """How many rows a sensor file or an air file may have."""
    return USUAL_ROWS if claims <= USUAL_CLAIMS else claims


def file_bytes_limit(claims: int = USUAL_CLAIMS) -> int:
    """How many bytes a sensor file or an air file may have."""
    return USUAL_FILE_BYTES if claims <= USUAL_CLAIMS else FILE_BYTES * claims


def log_bytes_limit(claims: int = USUAL_CLAIMS) -> int:
    """How many bytes a log may have that is audited."""
    return USUAL_LOG_BYTES if claims <= USUAL_CLAIMS else LOG_BYTES * claims


def claims_for(rows: int = 0, file_bytes: int = 0, log_bytes: int = 0) -> Optional[int]:
    """The least number of claims whose limits take files of this size; nothing if none does.

        >>> claims_for(rows=100_000), claims_for(rows=100_001), claims_for(rows=360_000)
        (200000, 200001, 360000)
    """
    if rows <= USUAL_ROWS and file_bytes <= USUAL_FILE_BYTES and log_bytes <= USUAL_LOG_BYTES:
        return USUAL_CLAIMS
    least = max(USUAL_CLAIMS + 1, rows, -(-file_bytes // FILE_BYTES), -(-log_bytes // LOG_BYTES))
    return least if least <= MOST_CLAIMS else None


def option_for(least: Optional[int]) -> str:
    """How the option is written that allows so much; or that none does."""
    return f"`--claims {least}`" if least is not None else f"more than `--claims {MOST_CLAIMS}` allows"


def words_of(claims: Optional[int]) -> list[str]:
    """The option as words; what is usual has none."""
    return [] if claims is None or claims == USUAL_CLAIMS else ["--claims", str(claims)]


def claims_of(value: Any) -> int:
    """A number of claims that a program gives; without one the usual number."""
    if value is None:
        return USUAL_CLAIMS
    try:
        claims = index(value)
    except TypeError as fault:
        raise Fault(f"claims: {value!r} is no whole number") from fault
    if isinstance(value, bool) or not USUAL_CLAIMS <= claims <= MOST_CLAIMS:
        raise Fault(f"claims: {value!r} is not from {USUAL_CLAIMS:,} to {MOST_CLAIMS:,}")
    return claims


def claims_in(words: Sequence[str]) -> int:
    """The number of claims that the words of a command give; the usual number if they give none, or one that is refused."""
    for word, after in zip(words, [*words[1:], ""]):
        if word == "--":
            break
        value = after if word == "--claims" else word[9:] if word.startswith("--claims=") else ""
        if is_number(value):
            return int(value)
    return USUAL_CLAIMS


def is_number(text: str) -> bool:
    """Whether the program takes this as the number of the option."""
    return re.fullmatch("[1-9][0-9]{5,8}", text) is not None and USUAL_CLAIMS <= int(text) <= MOST_CLAIMS


def number(text: str) -> int:
    """The number of a companion's option."""
    if not is_number(text):
        raise argparse.ArgumentTypeError(f"`{text}` is not a number from {USUAL_CLAIMS} to {MOST_CLAIMS}")
    return int(text)


def add_claims(parser: argparse.ArgumentParser, what: str) -> None:
    """The option of a companion; `what` is what follows from it."""
    parser.add_argument("--claims", type=number, default=USUAL_CLAIMS, metavar="N", help=f"{what} (default: {USUAL_CLAIMS})")


def megabytes(firings: int) -> str:
    """How much a run keeps of these firings."""
    least, most = (-(-firings * size // 10**6) for size in KEPT_BYTES)
    return f"{least:,} to {most:,} MB"
