"""Texts, places in them, and what is to say of a place, as compilers show it."""
from __future__ import annotations

import difflib
import os
from dataclasses import dataclass, field
from typing import Iterable, NamedTuple, Optional

# More bytes than `ptides` takes of any graph.
MOST_READ = 1 << 24
# Words of other tools for a kind or a block.
ALIASES = dict(pair.split("=") for pair in """min=least max=greatest minimum=least maximum=greatest average=mean avg=mean clip=clip100
clamp=clip100 deadband=dead5 gain=scale multiply=scale offset=shift threshold=above timer=every periodic=every clock=every counter=count
plus=add minus=sub subtract=sub integrate=sum hold=latch select=merge join=merge state=machine fsm=machine input=sensor output=actuator
transmit=send""".split())

@dataclass
class Source:
    """A text and what it is called."""
    name: str
    text: str

    def place(self, at: int) -> tuple[int, int]:
        """Line and column, both from 1."""
        return self.text.count("\n", 0, at) + 1, at - self.text.rfind("\n", 0, at)


@dataclass
class Spot:
    """A part of a text and what is to say of it."""
    source: Source
    start: int
    end: int
    label: str


@dataclass
class Finding:
    """What a line means: the place at fault, what was expected, what to change, other places that belong to it."""
    spot: Optional[Spot]
    expected: str = ""
    helps: list[str] = field(default_factory=list)
    notes: list[Spot] = field(default_factory=list)


def shown(text: str) -> str:
    """The text with nothing in it that moves a terminal's cursor."""
    return "".join(sign if sign.isprintable() else " " if sign == "\t" else "?" for sign in text)


def draw(spot: Spot, gutter: int, mark: str, label: str) -> list[str]:
    """The place, its line, and the marks below it; of a long line the part around the place."""
    line, column = spot.source.place(spot.start)
    body = spot.source.text[spot.start - column + 1:].split("\n", 1)[0].rstrip("\r")
    length = max(1, min(spot.end - spot.start, len(body) - column + 1))
    first = max(0, min(column - 41, len(body) - 110)) if len(body) > 120 else 0
    last = first + 110 if len(body) > 120 else len(body)
    before, text, at = "..." if first else "", shown(body[first:last]), column - 1 - first
    marks = " " * (len(before) + at) + mark * max(1, min(length, last - first - at))
    return [f"{'':{gutter}}--> {spot.source.name}:{line}:{column}", f"{'':{gutter}} |",
            f"{line:>{gutter}} | {before}{text}{'...' if last < len(body) else ''}", f"{'':{gutter}} | {marks} {label}".rstrip()]


def report(line: str, finding: Finding) -> str:
    """The finding as text."""
    spots = ([finding.spot] if finding.spot else []) + finding.notes
    gutter = max([len(str(spot.source.place(spot.start)[0])) for spot in spots], default=1)
    lines = [f"error: {line}"] + (draw(finding.spot, gutter, "^", finding.spot.label) if finding.spot else [])
    tail = ([f"expected: {finding.expected}"] if finding.expected else []) + [f"help: {text}" for text in finding.helps if text]
    lines += [f"{'':{gutter}} |"] * bool(tail and finding.spot) + [f"{'':{gutter}} = {text}" for text in tail]
    for note in finding.notes:
        lines += [f"note: {note.label}", *draw(note, gutter, "-", "")]
    return "\n".join(lines) + "\n"


class Length(NamedTuple):
    """How long a file is: its bytes, as text too, and about how many rows."""
    text: str
    size: int
    rows: int


def length_of(path: str, data: bytes = b"") -> Length:
    """The length of a file of which these are the first bytes. A device may have no end."""
    size = os.path.getsize(path) if os.path.isfile(path) else 1 << 62
    lines = data.count(b"\n") + (not data.endswith(b"\n"))
    return Length(f"{size:,} bytes" if os.path.isfile(path) else "no end", size, lines * size // max(1, len(data)) - 1)


def bytes_of(data: bytes) -> str:
    """How many bytes a file has."""
    return f"{'at least ' if len(data) == MOST_READ else ''}{len(data):,} bytes"


def near(word: str, pool: list[str]) -> str:
    """`; did you mean ..?`, if one of the pool is close."""
    by_case = {each.lower(): each for each in reversed(pool)}
    alias = ALIASES.get(word.lower())
    close = [alias] if alias in pool else difflib.get_close_matches(word.lower(), by_case, 1, 0.5)
    return f"; did you mean `{by_case[close[0]]}`?" if close else ""


def first(findings: Iterable[Optional[Finding]]) -> Optional[Finding]:
    """The first that is one."""
    return next((each for each in findings if each), None)


def listed(words: list[str]) -> str:
    """The words in quotes, the first twelve at most."""
    return ", ".join(f"`{word}`" for word in words[:12]) + (f" and {len(words) - 12} more" if len(words) > 12 else "")


def a(word: str, quote: str = "`") -> str:
    """The word with its article."""
    return f"{'an' if word[:1] in 'aeiou' else 'a'} {quote}{word}{quote}"


def count(number: int, what: str) -> str:
    """The number and the word."""
    return f"{number or 'no'} {what}{'' if number == 1 else 's'}"
