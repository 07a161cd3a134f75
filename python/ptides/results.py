"""What a run gives: its tables, its misses, its log, and what was left until each deadline."""
from __future__ import annotations

import io
from functools import cached_property
from typing import TYPE_CHECKING, Any, Iterator, Mapping, Optional, Union

from ptides import frames, limits
from ptides.formulas.option import BlocksFile
from ptides.graphs import Placed
from ptides.logs import Entry, entries_of
from ptides.misses import Miss, misses_of
from ptides.probes import Output
from ptides.program import Done, Fault
from ptides.records import Event, Room, Rows, stamps, table_html
from ptides.tables import events_of, parts_of
from ptides.times import stamp_of

if TYPE_CHECKING:
    import pandas

INTEGERS = {"actuator": "object", "time": "int64", "step": "int64", "value": "int64"}


class Result:
    """A run that finished.

    `status` is 0, or 5 if a deadline was missed. `output` is all that the program wrote, which `audit` takes; `notes` are the lines
    on standard error. `zero` is the wall time of 0, if a sensor has such times or its file has one beside it, or if it was stated. Times are
    microseconds from 0. `graph` is the graph as it ran, `claims` how many claims a platform could make, `blocks` the text of its file of
    formulas, if it had one, and `probes` says which output each actuator watches that was added.

    `result["valve"]` is what the actuator `valve` did, as a pandas Series by time.
    """

    def __init__(self, done: Done, placed: Placed, claims: Optional[int] = None, blocks: Optional[BlocksFile] = None):
        self.status, self.output, self.notes = done.status, done.output, done.notes.splitlines()
        self._zero, self.graph, self.probes, self.claims = placed.zero, placed.graph, placed.probes, limits.claims_of(claims)
        self.blocks = blocks.read() if blocks else None
        self._tables, self._log = parts_of(done.output)
        self._has_log = "\nlog\n" in done.output

    @property
    def zero(self) -> Optional[pandas.Timestamp]:
        """The wall time of 0, if it is known."""
        return stamp_of(self._zero)

    @cached_property
    def events(self) -> dict[str, list[Event]]:
        """The events of each actuator, without pandas; of one that did nothing the list is empty."""
        found = events_of(self._tables)
        return {name: found.get(name, []) for name in self.actuators}

    @property
    def actuators(self) -> list[str]:
        """The names of the actuators, in the order of the graph."""
        return [name for name in actors_of(self.graph, "actuator") if name not in self.probes]

    @property
    def table(self) -> pandas.DataFrame:
        """The tables as one DataFrame with the columns actuator, time, step and value, and `stamp` if there is a zero."""
        pandas = frames.pandas()

        frame = pandas.read_csv(io.StringIO(self._tables), dtype=INTEGERS, keep_default_na=False)
        frame = frame[~frame["actuator"].isin(list(self.probes))].reset_index(drop=True)
        if self._zero is not None:
            frame["stamp"] = stamps(frame["time"], self._zero)
        return frame

    def __getitem__(self, key: Union[str, Output]) -> pandas.Series:
        """What an actuator did by time; or what an output gave that `probes` watches: the actor, or it and the number of its output."""
        pandas = frames.pandas()

        events = self.events_at(key)
        values = pandas.Series([event.value for event in events], dtype="int64", name=key if isinstance(key, str) else key[0])
        values.index = pandas.Index(stamps([event.time for event in events], self._zero), name="time")
        return values

    def events_at(self, key: Union[str, Output]) -> list[Event]:
        """The events of an actuator or of an output that is watched."""
        if key in self.events:
            return self.events[key]
        output = (key, 0) if isinstance(key, str) else tuple(key)
        for name, watched in self.probes.items():
            if watched == output:
                return self._watched.get(name, [])
        raise KeyError(f"{key}: no actuator of this graph, and no output that `probes` names")

    @cached_property
    def _watched(self) -> Mapping[str, list[Event]]:
        return events_of(self._tables) if self.probes else {}

    def __iter__(self) -> Iterator[str]:
        """The names of the actuators."""
        return iter(self.actuators)

    @cached_property
    def misses(self) -> Rows[Miss]:
        """What was missed, which is nothing at status 0."""
        return Rows(Miss, misses_of("\n".join(self.notes)), self._zero)

    def entries(self) -> Iterator[Entry]:
        """What each platform did, turn by turn, one after the other: a long log takes much memory as a list."""
        if not self._has_log:
            raise Fault("this run has no log: ask for it by log=True")
        return entries_of(self._log)

    @cached_property
    def log(self) -> Rows[Entry]:
        """What each platform did, turn by turn."""
        return Rows(Entry, self.entries(), self._zero)

    @cached_property
    def rooms(self) -> Rows[Room]:
        """What was left until the deadline at each event of an actuator or a sender; below 0 it was missed."""
        slacks = {actor["name"]: actor["slack"] for actor in self.graph["actors"] if "slack" in actor and actor["name"] not in self.probes}
        kinds = {**dict.fromkeys(actors_of(self.graph, "actuator"), "post"), **dict.fromkeys(actors_of(self.graph, "send"), "sent")}
        acted = (entry for entry in self.entries() if entry.actor in slacks and entry.what == kinds[entry.actor])
        return Rows(Room, (room_of(entry, slacks[entry.actor]) for entry in acted), self._zero)

    def room(self, actor: str) -> pandas.Series:
        """What was left until each deadline of an actuator or a sender, in microseconds, by time."""
        pandas = frames.pandas()

        rooms = [room for room in self.rooms if room.actor == actor]
        if not rooms and actor not in actors_of(self.graph, "actuator", "send"):
            raise KeyError(f"{actor}: no actuator and no sender of this graph")
        index = pandas.Index(stamps([room.time for room in rooms], self._zero), name="time")
        return pandas.Series([room.room for room in rooms], index=index, dtype="int64", name=actor)

    def __repr__(self) -> str:
        events = sum(map(len, self.events.values()))
        return f"<ptides.Result: status {self.status}, {events:,} events, {len(self.misses):,} missed>"

    def _repr_html_(self) -> str:
        """What a notebook shows: a line for each actuator."""
        head = ["actuator", "events", "first", "last", "last value", "missed", "least room"]
        return f"<p>status {self.status}</p>" + table_html(head, (self._line(name) for name in self.actuators))

    def _when(self, time: int) -> str:
        """A time as a notebook shows it."""
        return f"{time / 1e6:.6f} s" if self._zero is None else str(stamps([time], self._zero)[0])

    def _line(self, name: str) -> list[Any]:
        """What a notebook shows of an actuator."""
        events = self.events[name]
        missed = sum(miss.actor == name for miss in self.misses)
        rooms = [room.room for room in self.rooms if room.actor == name] if self._has_log else []
        ends = [self._when(event.time) for event in (events[0], events[-1])] if events else ["", ""]
        return [name, len(events), *ends, events[-1].value if events else "", missed, min(rooms, default="")]


def actors_of(graph: Mapping[str, Any], *kinds: str) -> list[str]:
    """The names of the actors of these kinds, in the order of the graph."""
    return [actor["name"] for actor in graph["actors"] if actor["kind"] in kinds]


def room_of(entry: Entry, slack: int) -> Room:
    """What was left when an actuator's result was posted, or a sender's message was sent."""
    deadline = entry.time + slack
    return Room(entry.actor, entry.time, entry.step, entry.reading, deadline, deadline - entry.reading)


class Verdict:
    """What `audit` says of a log: `lawful`, and if it isn't the `line` that says what is wrong first, and what `explain` shows."""

    def __init__(self, line: str = "", place: str = "", explanation: str = ""):
        self.lawful, self.line, self.place, self.explanation = not line, line, place, explanation

    def __bool__(self) -> bool:
        return self.lawful

    def __repr__(self) -> str:
        return f"<ptides.Verdict: {self.line or 'lawful'}>"
