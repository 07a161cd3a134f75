"""Reads the log that `run --log` and `replay --log` write after the tables.

    >>> log = "turn,p,61,61,1\\nclaim,0,s,50,0\\nturn,p,61,61,1\\npost,0\\n"
    >>> [(entry.what, entry.actor, entry.reading) for entry in entries_of(log)]
    [('claim', 's', 61), ('post', 's', 61)]
"""
from __future__ import annotations

from sys import intern
from typing import Collection, Iterator, NamedTuple, Optional

# How much of a log is cut into lines at a time.
BLOCK = 1 << 20


class Entry(NamedTuple):
    """One thing that a platform did at a turn, whose reading it has.

    `what` is `row`, `take`, `claim`, `post` or `sent`, or `take end` and `sent end` for the end of a link. A row has `seen`, and a
    claim and its post have the number of their task.
    """

    what: str
    platform: str
    reading: int
    actor: str
    time: Optional[int] = None
    step: Optional[int] = None
    value: Optional[int] = None
    seen: Optional[int] = None
    number: Optional[int] = None


def lines_of(log: str) -> Iterator[str]:
    """The lines of a log: a list of all would take more memory than the log."""
    start = 0
    while start < len(log):
        end = log.find("\n", start + BLOCK) + 1 or len(log)
        yield from log[start:end].splitlines()
        start = end


def readings_of(log: str, actors: Collection[str]) -> dict[str, list[int]]:
    """The readings at which each of these actors was claimed. The claims of an actor are in the order of their tags."""
    found: dict[str, list[int]] = {}
    reading = 0
    for line in lines_of(log):
        if line.startswith("turn,"):
            reading = int(line.split(",", 3)[2])
        elif line.startswith("claim,"):
            actor = line.split(",", 3)[2]
            if actor in actors:
                found.setdefault(actor, []).append(reading)
    return found


def entries_of(log: str) -> Iterator[Entry]:
    """The entries of a log, platform after platform. Turns in which nothing was done have none."""
    claims: dict[tuple[str, int], tuple[str, int, int]] = {}
    platform, reading, made = "", 0, Entry._make
    for line in lines_of(log):
        word, _, rest = line.partition(",")
        if word == "turn":
            platform, now, _ = rest.split(",", 2)
            # Many entries share a name.
            platform, reading = intern(platform), int(now)
        elif word == "post":
            number = int(rest)
            yield made(("post", platform, reading, *claims.pop((platform, number)), None, None, number))
        elif word == "claim":
            task, actor, time, step = rest.split(",")
            number = int(task)
            tag = claims[platform, number] = (intern(actor), int(time), int(step))
            yield made(("claim", platform, reading, *tag, None, None, number))
        elif word == "row":
            actor, time, seen, value = rest.split(",")
            yield made(("row", platform, reading, intern(actor), int(time), 0, int(value), int(seen), None))
        elif rest.endswith(",end"):
            yield made((f"{word} end", platform, reading, rest[:-4], None, None, None, None, None))
        else:
            actor, time, step, value = rest.split(",")
            yield made((intern(word), platform, reading, intern(actor), int(time), int(step), int(value), None, None))
