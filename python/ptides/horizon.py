"""What helps against a run that is too long: the horizon that fits, the number of claims that fits, or parts of the recording.

A part has a zero of its own, so the ticks of `every` and the rows of sensors count from its start.
"""
from __future__ import annotations

import re
from bisect import bisect_left, bisect_right
from typing import Any, NamedTuple, Optional, Sequence

from ptides import counting, limits, program
from ptides.counting import Firings, Runs
from ptides.files import records_of

# Parts are of whole seconds, if they have this many microseconds or more.
LONG_PART, SECOND = 10**7, 10**6
UNITS = [("h", 3_600_000_000), ("min", 60_000_000), ("s", 1_000_000), ("ms", 1000), ("us", 1)]


class Parts(NamedTuple):
    """How many parts of which length a recording has, so that each fits."""

    number: int
    length: int


class Whole(NamedTuple):
    """How many firings the platform with the most makes in the whole run, and all together; without `is_counted` it is about that."""

    most: int
    all: int
    is_counted: bool


class Horizon(NamedTuple):
    """A horizon that fits, the whole run, and the parts of the recording, if it has rows. Each may be unknown."""

    fits: Optional[counting.Fits]
    whole: Whole
    parts: Optional[Parts]


def duration(time: int) -> str:
    """A time in its two largest units, as `4 h 37 min`; what is less is left out."""
    first = next((number for number, (_, size) in enumerate(UNITS) if time >= size), len(UNITS) - 1)
    parts = []
    for unit, size in UNITS[first:first + 2]:
        parts += [f"{time // size} {unit}"] if time >= size or not parts else []
        time %= size
    return " ".join(parts)


class Sources:
    """When events come from outside: by the rows of sensors and the ticks of `every`."""

    def __init__(self, graph: dict[str, Any]):
        self.until = graph["until"]
        self.clocks = [(actor["start"], actor["period"]) for actor in graph["actors"] if actor["kind"] == "every"]
        self.rows = sorted(int(time) for actor in graph["actors"] if actor["kind"] == "sensor" for time, _, _ in records_of(actor["file"]))

    def ticks(self, time: int) -> int:
        """How many ticks come up to a time."""
        return sum((time - start) // period + 1 for start, period in self.clocks if start <= time)

    def count(self, time: int) -> int:
        """How many events come up to a time."""
        return self.ticks(time) + bisect_right(self.rows, time)

    def parts(self, most: int) -> Optional[Parts]:
        """The fewest parts of one length with at most that number of events each."""
        span = min(self.until, self.rows[-1]) + 1 if self.rows else 0
        for number in range(2, len(self.rows) + 1):
            length = -(-span // number)
            length = -(-length // SECOND) * SECOND if length >= LONG_PART else length
            edges = [bisect_left(self.rows, start) for start in range(0, span + length, length)]
            if max(end - start for start, end in zip(edges, edges[1:])) + self.ticks(length - 1) <= most:
                return Parts(len(edges) - 1, length)
        return None

    def time_of(self, number: int) -> int:
        """The greatest time, up to the horizon of the graph, up to which no more events come than that number."""
        low, high = 0, self.until
        while low < high:
            middle = (low + high + 1) // 2
            low, high = (middle, high) if self.count(middle) <= number else (low, middle - 1)
        return low


def longest(graph: dict[str, Any], claims: int, blocks: Sequence[str] = ()) -> Optional[Horizon]:
    """What fits of a run in which a platform makes more firings than its claims. Nothing if that can't be found. `blocks` are the words that
    name the blocks of the graph.

    The claims are counted in the log of a run with far more of them. If the whole run is too long for that too, it is counted up to an
    earlier time, and how many events come from outside up to then says how many firings the whole run makes.
    """
    try:
        return search(Runs(graph, counting.most_counted(claims), blocks), Sources(graph), claims)
    except (OSError, ValueError, LookupError, program.Fault):
        return None


def search(runs: Runs, sources: Sources, claims: int) -> Optional[Horizon]:
    """The same, with the events that come from outside."""
    found = past(runs, sources, claims)
    if found is None:
        return None
    whole = whole_of(runs, sources, found)
    fits = counting.fits(runs, found, claims)
    return Horizon(fits, whole, sources.parts(sources.count(fits.until)) if fits else None)


def past(runs: Runs, sources: Sources, claims: int) -> Optional[Firings]:
    """The firings up to a time at which a platform has made more than its claims, and none more than are counted."""
    total = sources.count(sources.until)
    # Most events from outside make each actor fire once at most.
    events, too_many = min(total, runs.most // max(1, len(runs.graph["actors"]))), total + 1
    for _ in range(20):
        if not 0 < events < too_many:
            break
        found = runs.counted(sources.until if events == total else sources.time_of(events))
        if found is None:
            events, too_many = events // 4, events
        elif found.most() > claims:
            return found
        else:
            events = max(events + 1, min(2 * claims * events // max(1, found.most()), (events + too_many) // 2 if too_many <= total else total))
    return None


def whole_of(runs: Runs, sources: Sources, found: Firings) -> Whole:
    """The firings of the whole run, of which these are a part, or all; they are counted if they aren't too many for that."""
    share = sources.count(sources.until) / max(1, sources.count(found.until))
    if found.until < sources.until and found.most() * share <= runs.most:
        whole = runs.counted(sources.until)
        found, share = (found, share) if whole is None else (whole, 1)
    is_counted = found.until >= sources.until
    return Whole(*(round(number * (1 if is_counted else share)) for number in (found.most(), sum(found.totals().values()))), is_counted)


def claims_line(whole: Whole) -> str:
    """With which number of claims the whole run fits, and what that takes."""
    takes = f"it then keeps {limits.megabytes(whole.all)}"
    if whole.most > limits.MOST_CLAIMS:
        return f"the whole run makes {'' if whole.is_counted else 'about '}{whole.most:,} firings on a platform, more than `--claims {limits.MOST_CLAIMS}` allows"
    if not whole.is_counted:
        return f"or allow more firings: the whole run makes about {whole.most:,} on a platform, so `--claims` of that and some more; {takes}"
    return f"or allow more firings: with `--claims {max(whole.most, limits.USUAL_CLAIMS + 1)}` the whole run fits; {takes}"


def advice(graph: dict[str, Any], claims: int, blocks: Sequence[str] = ()) -> list[str]:
    """What helps against a run that is too long: the horizon that fits, how many claims it needs, and the parts in which the recording goes."""
    found, until = longest(graph, claims, blocks), graph["until"]
    if found is None:
        return ["lower `until`, raise periods, give fewer rows, or allow more firings by `--claims`"]
    lines = []
    if found.fits:
        fits = found.fits
        lines.append(f"lower `until` from {until} ({duration(until)}) to {fits.until} ({duration(fits.until)}): then `run` makes {fits.firings:,} firings on `{fits.platform}`")
    lines.append(claims_line(found.whole))
    if found.parts:
        number, length = found.parts
        lines.append(f"or take the recording in {number} parts of {duration(length)}: `rows` with a --zero for each, `--from 0 --to {length - 1}`, and {length - 1} as "
                     "`until` (docs/RECORDINGS.md, Long recordings)")
    return [*lines, "or raise periods, give fewer rows, or leave actors out, probes too"]


def with_advice(refused: program.Refused, graph: dict[str, Any], claims: int, companion: str, blocks: Sequence[str] = ()) -> program.Refused:
    """The refusal; of a run that is too long its notes go on with what helps, as said by a companion. What `explain` has found isn't looked for again."""
    if refused.status == 6:
        known = re.findall(r"^ *= help: (.*)$", refused.explanation, re.MULTILINE)
        refused.notes += "".join(f"ptides {companion}: {line}\n" for line in known or advice(graph, claims, blocks))
    return refused
