"""The trends of a report: what each output gave, what was left until deadlines, readings, and messages on their way."""
from __future__ import annotations

from typing import Any, Iterator, Mapping, Sequence, Union

from ptides.files import records_of
from ptides.inner import Value
from ptides.probes import Output, all_outputs
from ptides.records import Event
from ptides.reporting.gathered import Gathered
from ptides.reporting.logged import Seen, Tag
from ptides.reporting.series import Signal

# Kinds of actors whose events are the graph's own inputs and outputs.
ENDS = {"sensor": "sensor", "send": "message", "receive": "message", "actuator": "actuator"}
# What is at tags.
Events = Sequence[Union[Event, Value]]
Values = Mapping[Output, list[Value]]


def signal(actor: dict[str, Any], events: Events, readings: dict[Tag, int], name: str = "", group: str = "trends") -> Signal:
    """The trend of events, with how long after its time each was handled. What a delay gives has another time than what it fired for."""
    readings = {} if actor["kind"] == "delay" else readings
    after = [readings.get((event.time, event.step)) for event in events] if readings else []
    return Signal(name or actor["name"], actor["platform"], ENDS.get(actor["kind"], "inner"), group, [event.time for event in events],
                  [event.value for event in events], [event.step for event in events],
                  [None if reading is None else reading - event.time for reading, event in zip(after, events)],
                  extra={"of_kind": actor["kind"], **({"slack": actor["slack"]} if "slack" in actor else {})})


def trends(found: Gathered, seen: Seen, inner: Values) -> Iterator[Signal]:
    """What each output gave, what each sender sent and what each actuator did, platform after platform."""
    marks = Marks(found)
    outputs = list(all_outputs(found.graph))
    actors = [actor for platform in found.graph["platforms"] for actor in found.graph["actors"] if actor["platform"] == platform]
    for actor in actors:
        name = actor["name"]
        if actor["kind"] == "actuator":
            yield marks.on(signal(actor, found.result.events[name], seen.acted.get(name, {})))
        elif actor["kind"] == "send":
            events = seen.sent.get(name) or fed(found.graph, name, inner)
            yield marks.on(signal(actor, events, seen.acted.get(name, {})))
        elif name in seen.rows:
            rows = [Event(row.time, 0, row.value) for row in seen.rows[name]]
            yield signal(actor, rows, {(row.time, 0): row.seen for row in seen.rows[name]})
        else:
            mine = [output for output in outputs if output[0] == name and output in inner]
            for output in mine:
                label = f"{name}, output {output[1]}" if len(mine) > 1 else name
                yield marks.on(signal(actor, inner[output], seen.fired.get(name, {}), label))


def fed(graph: dict[str, Any], name: str, inner: Values) -> Events:
    """What goes into an actor with one input."""
    return next((inner.get((wire[0], wire[1]), []) for wire in graph["wires"] if wire[2] == name), [])


class Marks:
    """Which events were missed, and which row or message was late."""

    def __init__(self, found: Gathered):
        self.missed: dict[str, set[Tag]] = {}
        for miss in found.result.misses:
            self.missed.setdefault(miss.actor, set()).add((miss.time, miss.step))
        self.place = found.refused.place.split() if found.refused else []
        self.line = found.refused.line if found.refused else ""

    def on(self, signal: Signal) -> Signal:
        """The signal with its marks."""
        tags = list(zip(signal.times, signal.steps))
        missed = self.missed.get(signal.name, set())
        signal.missed = [index for index, tag in enumerate(tags) if tag in missed]
        if self.place[:2] == ["sensor", signal.name] and self.place[2:3] == ["row"]:
            signal.late = [index for index in [int(self.place[3]) - 1] if index < len(tags)]
        elif self.line.startswith(f"late {signal.name} at "):
            time, step = self.line.split(" ")[3].rstrip(",").split(".")
            signal.late = [index for index, tag in enumerate(tags) if tag == (int(time), int(step))]
        return signal


def rooms(found: Gathered, seen: Seen) -> Iterator[Signal]:
    """What was left until each deadline of an actuator or a sender."""
    for actor in found.graph["actors"]:
        acted = sorted(seen.acted.get(actor["name"], {}).items())
        if "slack" in actor and acted:
            left = [time + actor["slack"] - reading for (time, _), reading in acted]
            yield Signal(actor["name"], actor["platform"], "room", "rooms", [time for (time, _), _ in acted], left, [step for (_, step), _ in acted],
                         missed=[index for index, room in enumerate(left) if room < 0], limit=0)


def readings(found: Gathered, seen: Seen) -> Iterator[Signal]:
    """How long after the time of its event each platform did something for it, by its own clock."""
    for platform in found.graph["platforms"]:
        waits = sorted(seen.waits.get(platform, []))
        if waits:
            yield Signal(platform, platform, "reading", "readings", [time for time, _ in waits], [wait for _, wait in waits])


def network(found: Gathered, seen: Seen, inner: Values) -> Iterator[Signal]:
    """How long each message of a recorded network was on its way, at its time; and the lags of the clocks."""
    if found.asked.air is None:
        return
    transits: dict[str, list[int]] = {}
    for what, name, value in records_of(found.asked.air):
        if what == "lag":
            found.lags[name] = int(value)
        else:
            transits.setdefault(name, []).append(int(value))
    platforms = {actor["name"]: actor["platform"] for actor in found.graph["actors"]}
    for link in found.graph["links"]:
        name = link["from"]
        sent = seen.sent.get(name) or fed(found.graph, name, inner)
        count = min(len(sent), len(transits.get(name, [])))
        values = transits.get(name, [])[:count]
        yield Signal(name, platforms[name], "transit", "network", [event.time for event in sent[:count]], values,
                     missed=[index for index, value in enumerate(values) if value > link["delay"]], limit=link["delay"],
                     extra={"to": link["to"], "sent": len(sent)})
