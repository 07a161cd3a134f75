"""A run in the trace event format, which Perfetto and chrome://tracing show."""
from __future__ import annotations

import json
from typing import Any, Iterator

from ptides import program, wall_time
from ptides.waves.recording import Recording, Value

# Numbers past this are texts: what shows them has floats.
EXACT = 2**53


def exact(value: int) -> Any:
    """A number that a float holds, or a text."""
    return value if -EXACT <= value <= EXACT else str(value)


class Trace:
    """A process for each platform and a thread for each of its actors.

    An event of an output is an asynchronous slice from its time to the reading at which it fired, or the other way round if that is
    earlier. So slices of one actor may overlap. Its values are a counter, rows that were seen and misses are instants.
    """

    def __init__(self, recording: Recording):
        self.recording = recording
        self.platforms = {name: number for number, name in enumerate(recording.graph["platforms"], 1)}
        self.threads = {actor["name"]: (self.platforms[actor["platform"]], number) for number, actor in enumerate(recording.actors(), 1)}
        self.next = 0

    def names(self) -> Iterator[dict[str, Any]]:
        """What processes and threads are called, and their order."""
        for name, number in self.platforms.items():
            yield {"ph": "M", "name": "process_name", "pid": number, "args": {"name": name}}
            yield {"ph": "M", "name": "process_sort_index", "pid": number, "args": {"sort_index": number}}
        for actor in self.recording.actors():
            pid, tid = self.threads[actor["name"]]
            yield {"ph": "M", "name": "thread_name", "pid": pid, "tid": tid, "args": {"name": actor["name"]}}
            yield {"ph": "M", "name": "thread_sort_index", "pid": pid, "tid": tid, "args": {"sort_index": tid}}

    def slice(self, name: str, kind: str, thread: tuple[int, int], start: int, end: int, says: dict[str, Any]) -> Iterator[dict[str, Any]]:
        """An asynchronous slice, with its two ends."""
        self.next += 1
        same = {"name": name, "cat": kind, "id": self.next, "pid": thread[0], "tid": thread[1]}
        yield {"ph": "b", "ts": start, **same, "args": says}
        yield {"ph": "e", "ts": end, **same}

    def value(self, actor: dict[str, Any], signal: str, value: Value) -> Iterator[dict[str, Any]]:
        """A value of an output."""
        thread, tag = self.threads[actor["name"]], (actor["name"], value.time, value.step)
        says = {"value": exact(value.value), "time": value.time, "step": value.step, "reading": value.reading}
        if "slack" in actor:
            says.update(deadline=value.time + actor["slack"], missed=tag in self.recording.missed)
        start, end = sorted((value.time, value.reading))
        yield from self.slice(signal, "event", thread, start, end, says)
        yield {"ph": "C", "ts": value.time, "name": signal, "pid": thread[0], "args": {"value": exact(value.value)}}
        if tag in self.recording.missed:
            yield {"ph": "i", "ts": value.reading, "name": f"{signal} missed", "cat": "missed", "s": "p", "pid": thread[0], "tid": thread[1], "args": says}

    def messages(self) -> Iterator[dict[str, Any]]:
        """Messages, from the reading at which each was sent to the one at which it was taken."""
        peers = {link["from"]: link["to"] for link in self.recording.graph["links"]}
        taken = {(entry.actor, entry.time, entry.step): entry.reading for entry in self.recording.entries if entry.what == "take"}
        for entry in self.recording.entries:
            peer = peers.get(entry.actor, "")
            arrived = taken.get((peer, entry.time, entry.step)) if entry.what == "sent" else None
            if arrived is not None:
                says = {"value": exact(entry.value), "time": entry.time, "step": entry.step, "sent": entry.reading, "taken": arrived}
                start, end = sorted((entry.reading, arrived))
                yield from self.slice(f"{entry.actor} to {peer}", "message", self.threads[entry.actor], start, end, says)

    def rows(self) -> Iterator[dict[str, Any]]:
        """Rows of sensors, when they were seen."""
        for entry in self.recording.entries:
            if entry.what == "row":
                pid, tid = self.threads[entry.actor]
                yield {"ph": "i", "ts": entry.seen, "name": f"{entry.actor} seen", "cat": "row", "s": "t", "pid": pid, "tid": tid,
                       "args": {"value": exact(entry.value), "time": entry.time, "seen": entry.seen}}

    def events(self) -> list[dict[str, Any]]:
        """All events in the order of their times; the two ends of a slice stay in their order."""
        found = [*self.messages(), *self.rows()]
        for actor, output, names in self.recording.outputs():
            for value in self.recording.values.get((actor["name"], output), []):
                found += self.value(actor, ".".join(names[1:]), value)
        return [*self.names(), *sorted(found, key=lambda event: event["ts"])]


def trace_text(recording: Recording) -> str:
    """The trace as JSON, an event a line."""
    about = {"made by": f"ptides wave {program.version()}".strip(), **({} if recording.zero is None else {"zero": wall_time.text_of(recording.zero)})}
    lines = ",\n".join(json.dumps(event, separators=(",", ":")) for event in Trace(recording).events())
    return f'{{"displayTimeUnit":"ms","otherData":{json.dumps(about)},"traceEvents":[\n{lines}\n]}}\n'
