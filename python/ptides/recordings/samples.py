"""What all kinds of recordings have in common: samples with stamps, and the lines that they are from."""
from __future__ import annotations

import argparse
from fractions import Fraction
from typing import Iterator, NamedTuple, Optional, Union

from ptides.program import Fault
from ptides.ratios import Ratio

# What was asked for: the words of the command line. What is found out on the way is added: `wall`, the wall time of 0 in seconds
# since the start of 1970, if it is known; and `passed`, how many samples of which kind were passed over.
Asked = argparse.Namespace
Number = Union[int, Fraction]

MOST_TIME, MOST_SEEN = 10**15, 10**16
# The microseconds of a unit.
UNITS = {"s": Fraction(10**6), "ms": Fraction(1000), "us": Fraction(1), "ns": Fraction(1, 1000), "ps": Fraction(1, 10**6), "fs": Fraction(1, 10**9)}


class Sample(NamedTuple):
    """A value of the recording: the line it is from, its stamp in microseconds after 0, the number, and a time of its own."""

    line: int
    seen: int
    number: Union[Number, Ratio]
    time: Optional[int] = None


def place(asked: Asked, line: int) -> str:
    """A line of the recording, or a frame of one that has no lines."""
    return f"{asked.recording}: frame {line}" if asked.frames else f"{asked.recording}:{line}"


def fault_at(asked: Asked, line: int, message: str) -> Fault:
    """A fault of a line."""
    return Fault(f"{place(asked, line)}: {message}")


def lines_of(path: str) -> Iterator[tuple[int, str]]:
    """The lines of a text file with their numbers from 1."""
    try:
        with open(path, encoding="utf-8-sig", newline="") as file:
            yield from enumerate(file, 1)
    except OSError as fault:
        raise Fault(f"cannot read {path}: {fault.strerror}") from fault
    except UnicodeDecodeError as fault:
        raise Fault(f"cannot read {path}: it is not UTF-8") from fault
