"""What the log of a run says of each actor."""
from __future__ import annotations

from dataclasses import dataclass, field
from typing import Iterator

from ptides.logs import Entry
from ptides.records import Event

Tag = tuple[int, int]


@dataclass
class Seen:
    """What the log says: when each actor fired, acted and sent, which rows it had, and how long each platform waited."""

    fired: dict[str, dict[Tag, int]] = field(default_factory=dict)
    acted: dict[str, dict[Tag, int]] = field(default_factory=dict)
    sent: dict[str, list[Event]] = field(default_factory=dict)
    rows: dict[str, list[Entry]] = field(default_factory=dict)
    waits: dict[str, list[tuple[int, int]]] = field(default_factory=dict)
    claims: dict[str, int] = field(default_factory=dict)


def read_log(entries: Iterator[Entry]) -> Seen:
    """Sorts the entries of a log."""
    seen = Seen()
    for entry in entries:
        name = entry.actor
        if entry.what == "claim":
            seen.fired.setdefault(name, {})[entry.time, entry.step] = entry.reading
            seen.waits.setdefault(entry.platform, []).append((entry.time, entry.reading - entry.time))
            seen.claims[name] = seen.claims.get(name, 0) + 1
        elif entry.what == "post":
            seen.acted.setdefault(name, {})[entry.time, entry.step] = entry.reading
        elif entry.what == "sent":
            seen.sent.setdefault(name, []).append(Event(entry.time, entry.step, entry.value))
            seen.acted.setdefault(name, {})[entry.time, entry.step] = entry.reading
        elif entry.what == "row":
            seen.rows.setdefault(name, []).append(entry)
    return seen
