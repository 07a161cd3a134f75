"""How many firings each platform makes, and when: counted in the log of a run, which isn't kept."""
from __future__ import annotations

import json
import re
import subprocess
from collections import Counter
from dataclasses import dataclass, field
from typing import IO, Any, NamedTuple, Optional, Sequence

from ptides import limits, program
from ptides.program import Fault

# A run that is counted may make this many firings on a platform, which takes some seconds; a run that is allowed more may make some
# times what it is allowed.
MOST_COUNTED, TIMES = 4_000_000, 4
# Into how many parts of equal length the time of a run goes.
PARTS = 4096
BLOCK = 1 << 20
TURN, CLAIM = re.compile(rb"turn,(\w+),"), re.compile(rb"^claim,\d+,\w+,(\d+),", re.MULTILINE)
# The statuses of a run that is too long, or that has too little memory.
TOO_LONG = (6, 9)


class Fits(NamedTuple):
    """The greatest horizon up to which no platform makes more firings than it may, the platform with the most up to then, and how many."""

    until: int
    platform: str
    firings: int


@dataclass
class Firings:
    """How many firings each platform makes in each part of the time up to a horizon. What is before `first` is in part -1."""

    until: int
    first: int = 0
    width: int = 1
    counts: dict[str, Counter[int]] = field(default_factory=dict)

    def read(self, log: IO[bytes]) -> None:
        """Counts the claims in the log of a run, in which the turns of a platform come one after the other."""
        rest, name = b"", b""
        while True:
            block = log.read(BLOCK)
            lines, end, rest = (rest + block).rpartition(b"\n")
            last = TURN.match(lines, lines.rfind(b"\nturn,") + 1)
            if last and last[1] != name:
                # Up to the first turn of another platform all is of the one before.
                for part in re.split(rb"(?m)^(?=turn,)", lines):
                    turn = TURN.match(part)
                    name = turn[1] if turn else name
                    self.add(name, part)
            else:
                self.add(name, lines)
            if not block:
                return

    def add(self, name: bytes, lines: bytes) -> None:
        """Counts the claims in lines of a platform."""
        first, width = self.first, self.width
        times = CLAIM.findall(lines)
        if times:
            parts = self.counts.setdefault(name.decode(), Counter())
            parts.update((time - first) // width if time >= first else -1 for time in map(int, times))

    def totals(self) -> dict[str, int]:
        """How many firings each platform makes in all."""
        return {name: sum(parts.values()) for name, parts in self.counts.items()}

    def most(self) -> int:
        """How many firings the platform with the most makes."""
        return max(self.totals().values(), default=0)

    def first_past(self, claims: int) -> int:
        """The first part in which a platform has made more firings than it may; one of them does."""
        found = []
        for parts in self.counts.values():
            made = 0
            for number in sorted(parts):
                made += parts[number]
                if made > claims:
                    found.append(number)
                    break
        return min(found)

    def up_to(self, number: int) -> Fits:
        """What is made before a part that is a single microsecond."""
        totals = {name: sum(count for each, count in parts.items() if each < number) for name, parts in self.counts.items()}
        platform = max(totals, key=totals.__getitem__)
        return Fits(self.first + number - 1, platform, totals[platform])


def most_counted(claims: int) -> int:
    """How many firings a platform may make in runs that are counted."""
    return min(limits.MOST_CLAIMS, max(MOST_COUNTED, TIMES * claims))


@dataclass(frozen=True)
class Runs:
    """Runs of a graph whose firings are counted: how many a platform may make in one, and the words that name the blocks of the graph."""

    graph: dict[str, Any]
    most: int
    blocks: Sequence[str] = ()

    def counted(self, until: int, first: int = 0, width: int = 0) -> Optional[Firings]:
        """The firings up to a time, in parts of equal length from `first` on; nothing if a platform makes more than it may."""
        found = Firings(until, first, width or until // PARTS + 1)
        command = [program.find_program(), "run", "/dev/stdin", *self.blocks, "--log", *limits.words_of(self.most)]
        text = json.dumps({**self.graph, "until": until}).encode()
        with subprocess.Popen(command, stdin=subprocess.PIPE, stdout=subprocess.PIPE, stderr=subprocess.DEVNULL) as running:
            read_all(found, running.stdin, running.stdout, text)
        if running.returncode in TOO_LONG:
            return None
        if running.returncode not in (0, 5):
            raise Fault(f"the run ends with status {running.returncode}")
        return found


def read_all(found: Firings, source: Optional[IO[bytes]], log: Optional[IO[bytes]], text: bytes) -> None:
    """Gives the program the graph, which it reads before it writes, and counts what it writes."""
    assert source and log
    try:
        source.write(text)
        source.close()
    except BrokenPipeError:
        # Its status says why it didn't read all.
        pass
    found.read(log)


def fits(runs: Runs, found: Firings, claims: int) -> Optional[Fits]:
    """The greatest horizon that fits, of firings that are more than a platform may make; nothing if even the first events make more."""
    part = found.first_past(claims)
    start = part * found.width
    # The same up to the end of that part, in which each microsecond is a part of its own.
    fine = runs.counted(min(found.until, start + found.width - 1), start, 1)
    if fine is None:
        return None
    number = fine.first_past(claims)
    return fine.up_to(number) if fine.first + number > 0 else None
