"""Events as small arrays of whole numbers, which report.js reads, and an outline of those that are too many.

Times are written as differences of differences, and values as differences, so that most numbers have one or two digits:

    >>> times_coded([1000, 2000, 3000, 4001])
    [1000, 1000, 0, 1]
    >>> values_coded([98, 104, 97])
    [98, 6, -7]
"""
from __future__ import annotations

import json
from dataclasses import dataclass, field
from typing import Any, Iterable, Iterator, Optional, Sequence

# Whole numbers up to this one are exact in JavaScript.
EXACT = 2**53 - 1
# No trend is made smaller than this.
LEAST = 400


@dataclass
class Signal:
    """A trend: what it is, and its events, in the order of their tags.

    `after` is how long after the time of an event something was done for it: a row was seen, an actor fired or acted. `missed` and
    `late` are the numbers of the events that were. `limit` is a line to draw. `group` is the part of the page that has it.
    """

    name: str
    platform: str
    kind: str
    group: str
    times: Sequence[int]
    values: Sequence[int]
    steps: Sequence[int] = ()
    after: Sequence[Optional[int]] = ()
    missed: Sequence[int] = ()
    late: Sequence[int] = ()
    limit: Optional[int] = None
    extra: dict[str, Any] = field(default_factory=dict)


def times_coded(times: Sequence[int]) -> list[int]:
    """The first time, the first difference, and then the differences of differences."""
    steps = [later - earlier for earlier, later in zip(times, times[1:])]
    return [*times[:1], *steps[:1], *(later - earlier for earlier, later in zip(steps, steps[1:]))]


def values_coded(values: Sequence[int]) -> list[Any]:
    """The first value and then the differences; if one is too large to be exact, all values as text."""
    if any(abs(value) > EXACT for value in values):
        return [str(value) for value in values]
    return [*values[:1], *(later - earlier for earlier, later in zip(values, values[1:]))]


def runs_coded(numbers: Iterable[Any]) -> list[list[Any]]:
    """Numbers that rarely change: each with how often it follows itself."""
    found: list[list[Any]] = []
    for number in numbers:
        if found and found[-1][0] == number:
            found[-1][1] += 1
        else:
            found.append([number, 1])
    return found


def after_coded(after: Sequence[Optional[int]]) -> Any:
    """As runs, if that is shorter; what isn't known is `null`."""
    runs = runs_coded(after)
    return {"runs": runs} if 2 * len(runs) < len(after) or None in after else {"values": values_coded(after)}


def outline(values: Sequence[int], most: int) -> list[int]:
    """The numbers of at most `most` events that have the same outline: of equal parts the first, the least, the greatest, the last."""
    count = len(values)
    if count <= most:
        return list(range(count))
    parts = max(most // 4, 1)
    kept: list[int] = []
    for part in range(parts):
        inside = range(part * count // parts, (part + 1) * count // parts)
        if inside:
            kept += sorted({inside[0], min(inside, key=values.__getitem__), max(inside, key=values.__getitem__), inside[-1]})
    return kept


def coded(signal: Signal, most: int) -> dict[str, Any]:
    """A signal as report.js reads it, with at most `most` events; those that were missed or late stay, up to as many again."""
    kept = outline(signal.values, most)
    marked = [*signal.missed, *signal.late]
    if len(kept) < len(signal.values):
        kept = sorted({*kept, *(marked[index] for index in outline(marked, most))})
    place = {index: number for number, index in enumerate(kept)}
    found: dict[str, Any] = {"name": signal.name, "platform": signal.platform, "kind": signal.kind, "group": signal.group, **signal.extra}
    found.update(t=times_coded([signal.times[index] for index in kept]), v=values_coded([signal.values[index] for index in kept]))
    if any(signal.steps):
        found["s"] = runs_coded(signal.steps[index] for index in kept)
    if signal.after:
        found["r"] = after_coded([signal.after[index] for index in kept])
    for name, marks in (("missed", signal.missed), ("late", signal.late)):
        if marks:
            found[name] = values_coded([place[index] for index in marks if index in place])
    if signal.limit is not None:
        found["limit"] = signal.limit
    if len(kept) < len(signal.values):
        found["of"] = len(signal.values)
    return found


def fitted(signals: Sequence[Signal], most_bytes: int) -> tuple[str, int]:
    """The signals as JSON of at most `most_bytes` bytes, if that can be; and how many of them are outlines."""
    most = max((len(signal.values) for signal in signals), default=0)
    while True:
        found = [coded(signal, most) for signal in signals]
        text = json.dumps(found, separators=(",", ":"))
        if len(text) <= most_bytes or most <= LEAST:
            return text, sum("of" in each for each in found)
        most = max(LEAST, most * most_bytes * 9 // (len(text) * 10))


def merged(signals: Iterable[Signal]) -> Iterator[int]:
    """All times of all signals."""
    for signal in signals:
        yield from signal.times
