"""The events that a run missed, from its lines `missed ACTOR at TIME.STEP, reading N past L`.

    >>> from ptides import misses
    >>> lines = "missed valve at 100.0, reading 251 past 200\\nmissed valve at 300.0, reading 402 past 400\\n"
    >>> print(misses.summary(misses.misses_of(lines)))
    2 events were missed, all by `valve`; the first at 100.0, 51 us past its deadline, is also the worst
"""
from __future__ import annotations

import re
from collections import Counter
from typing import NamedTuple, Sequence

# Of fewer lines no summary is needed: they are read at a glance.
MANY = 5
LINE = re.compile(r"^missed (\w+) at (\d+)\.(\d+), reading (\d+) past (\d+)$", re.MULTILINE)


class Miss(NamedTuple):
    """An event on which an actor acted past its deadline: the reading of its platform's clock then, and the last one in time."""

    actor: str
    time: int
    step: int
    reading: int
    deadline: int

    @property
    def late(self) -> int:
        """How far past the deadline, in microseconds."""
        return self.reading - self.deadline

    @property
    def line(self) -> str:
        """The line of the program."""
        return f"missed {self.actor} at {self.time}.{self.step}, reading {self.reading} past {self.deadline}"

    def says(self) -> str:
        """Its tag and how late it was."""
        return f"at {self.time}.{self.step}, {self.late} us past its deadline"


def misses_of(notes: str) -> list[Miss]:
    """The misses that these notes name, in their order."""
    return [Miss(actor, int(time), int(step), int(reading), int(deadline)) for actor, time, step, reading, deadline in LINE.findall(notes)]


def summary(misses: Sequence[Miss]) -> str:
    """How many there are, of which actors, the first and the worst; nothing if there are none."""
    if not misses:
        return ""
    first, worst = min(misses, key=lambda miss: (miss.time, miss.step)), max(misses, key=lambda miss: miss.late)
    counts = Counter(miss.actor for miss in misses)
    who = ", ".join(f"{count:,} by `{actor}`" for actor, count in counts.most_common()) if len(counts) > 1 else f"all by `{first.actor}`"
    by = [f" of `{miss.actor}`" if len(counts) > 1 else "" for miss in (first, worst)]
    start = f"{len(misses):,} event{'s were' if len(misses) > 1 else ' was'} missed, {who}; the first{by[0]} {first.says()}"
    return start + (", is also the worst" if first.late == worst.late else f"; the worst{by[1]} {worst.says()}")


def note(notes: str) -> str:
    """The summary as a line after the notes, if there are many misses in them."""
    misses = misses_of(notes)
    return summary(misses) + "\n" if len(misses) >= MANY else ""
