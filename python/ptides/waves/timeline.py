"""A run as a picture: a line for each actor, with its events, readings, deadlines and messages. Many events are drawn as bands."""
from __future__ import annotations

from dataclasses import dataclass
from typing import Any, Iterator, NamedTuple, Optional
from xml.sax.saxutils import escape

from ptides import wall_time
from ptides.probes import outputs_of
from ptides.waves.drawing import HEIGHT, SIGN, SMALL_SIGN, STYLE, TOP, WIDTH, Labels, Scale, deadline, line, miss
from ptides.waves.recording import Recording

# Firings nearer to each other than `NEAR` points, at least `CROWD` of them, become a band.
NEAR, CROWD = 4, 6
# How many firings are drawn singly, on one line and on all, and how many points of bands: so a picture has less than 2 MB.
MOST_ON_A_LINE, MOST_SINGLE, MOST_COLUMNS = 120, 3000, 60_000


class Firing(NamedTuple):
    """What a unit did: the time of its event, the reading at which it fired, and what else is known of it."""

    time: int
    step: int
    reading: int
    value: Optional[int]
    deadline: Optional[int]
    missed: bool


@dataclass
class Unit:
    """A line of the timeline: an actor, or a cell of lanes."""

    actor: dict[str, Any]
    label: str
    firings: list[Firing]
    height: float = 0.0

    def shows_values(self) -> bool:
        """Whether the values are written beside single firings: those at the ends of a platform."""
        return self.actor["kind"] in ("sensor", "receive", "send", "actuator")


def values_of(recording: Recording, actor: dict[str, Any], output: int) -> dict[tuple[int, int], int]:
    """The values of an output by their tags. Those of sensors and receivers are in the log too, if they aren't watched."""
    found = recording.values.get((actor["name"], output), [])
    logged = [entry for what in ("row", "take") for entry in recording.logged.get((what, actor["name"]), [])]
    return {(each.time, each.step): each.value for each in found or logged}


def firings_of(recording: Recording, actor: dict[str, Any], output: int) -> list[Firing]:
    """The firings of an actor, or of a cell of lanes, whose events have the same tags."""
    name = actor["name"]
    values = values_of(recording, actor, output) if outputs_of(actor) <= 1 or actor["kind"] == "lanes" else {}
    if actor["kind"] == "lanes":
        fired = [(value.time, value.step, value.reading) for value in recording.values.get((name, output), [])]
    else:
        fired = [(entry.time, entry.step, entry.reading) for entry in recording.logged.get(("claim", name), [])]
    slack = actor.get("slack")
    return [
        Firing(time, step, reading, values.get((time, step)), None if slack is None else time + slack, (name, time, step) in recording.missed)
        for time, step, reading in fired
    ]


def units_of(recording: Recording) -> list[Unit]:
    """The lines of the picture."""
    units = []
    for actor in recording.actors():
        cells = len(actor.get("cells", [1]))
        for cell in range(cells):
            label = actor["name"] if cells == 1 else f"{actor['name']}, cell {cell}"
            units.append(Unit(actor, label, firings_of(recording, actor, cell)))
    return units


def single(unit: Unit, firing: Firing, scale: Scale, labels: Labels) -> Iterator[str]:
    """A firing: hollow at the time of the event, filled at the reading, a bar between, its deadline and its value."""
    y = unit.height
    if scale.shows(firing.deadline):
        yield deadline(scale.place(firing.deadline), y)
    times = firing.time, firing.reading
    if max(times) < scale.first or min(times) > scale.last:
        return
    kind = "late" if firing.missed else "early" if firing.reading < firing.time else "later"
    title = escape(f"{unit.label} at {firing.time}.{firing.step}, fired at the reading {firing.reading}" + ("" if firing.value is None else f", value {firing.value}"))
    yield f'<g class="{kind}"><title>{title}</title>' + line("wait", scale.x(firing.time), y, scale.x(firing.reading), y)
    if scale.shows(firing.time):
        yield f'<circle class="event" cx="{scale.x(firing.time)}" cy="{y:.1f}" r="3.2"/>'
    if scale.shows(firing.reading):
        yield miss(scale.place(firing.reading), y) if firing.missed else f'<circle class="acted" cx="{scale.x(firing.reading)}" cy="{y:.1f}" r="3.2"/>'
    if firing.value is not None and unit.shows_values() and scale.shows(max(times)):
        yield labels.place(scale.place(max(times)), y - 9, str(firing.value))
    yield "</g>"


def crowds(firings: list[Firing], scale: Scale, most: int) -> tuple[list[Firing], list[list[Firing]]]:
    """The firings that are drawn singly, and those that are drawn as bands."""
    if len(firings) > most:
        return [], [firings]
    groups: list[list[Firing]] = []
    for firing in sorted(firings):
        if groups and scale.place(firing.time) - scale.place(groups[-1][-1].time) < NEAR:
            groups[-1].append(firing)
        else:
            groups.append([firing])
    return [firing for group in groups if len(group) < CROWD for firing in group], [group for group in groups if len(group) >= CROWD]


def band(unit: Unit, firings: list[Firing], scale: Scale, width: int) -> Iterator[str]:
    """Many firings: in each column the range of their values, within that of all; below it a mark if one was missed."""
    values = [firing.value for firing in firings if firing.value is not None]
    low, high = (min(values), max(values)) if values else (0, 0)
    columns: dict[int, list[Firing]] = {}
    for firing in firings:
        columns.setdefault(int(scale.place(firing.time) // width), []).append(firing)
    missed = sum(firing.missed for firing in firings)
    says = f"{unit.label}: {len(firings):,} events from {min(firings).time} to {max(firings).time}"
    says += (f", values {low} to {high}" if values else "") + (f", {missed:,} missed" if missed else "")

    def height(value: Optional[int]) -> float:
        return unit.height + (0 if value is None or low == high else 8 - 16 * (value - low) / (high - low))

    def stroke(column: int, found: list[Firing]) -> str:
        # An event that gives no value, as of a limit that isn't passed, is in the middle only if it is alone.
        heights = [height(firing.value) for firing in found if firing.value is not None] or [unit.height]
        top, bottom = min(heights) - 0.7, max(heights) + 0.7
        return f"M{column * width + width / 2:g} {top:.1f}V{bottom:.1f}"

    yield f"<g><title>{escape(says)}</title>"
    yield f'<path class="band" stroke-width="{width}" d="{"".join(stroke(*each) for each in sorted(columns.items()))}"/>'
    late = [column for column, found in sorted(columns.items()) if any(firing.missed for firing in found)]
    if late:
        yield f'<path class="miss" d="{"".join(f"M{column * width + width / 2:g} {unit.height + 9:.1f}v3" for column in late)}"/>'
    yield "</g>"


class Picture:
    """The timeline of all platforms and units from the one time to the other."""

    def __init__(self, recording: Recording, first: Optional[int], last: Optional[int]):
        self.recording, self.units = recording, units_of(recording)
        times = [time for unit in self.units for firing in unit.firings for time in (firing.time, firing.reading)]
        # A name and, smaller, a kind are on the left of each line.
        left = max([30 + SIGN * len(unit.label) + SMALL_SIGN * len(unit.actor["kind"]) for unit in self.units], default=0)
        self.scale = Scale(min(times, default=0) if first is None else first, max(times, default=1) if last is None else last, max(left, 190))
        self.top = TOP + 10 * (recording.zero is not None)
        self.heights: dict[str, float] = {}
        self.crowded: set[str] = set()

    def frames(self) -> Iterator[str]:
        """Places the units from above to below; gives the frames of the platforms and their axes."""
        y = float(self.top)
        for platform in self.recording.graph["platforms"]:
            top = y
            y += 18
            for unit in self.units:
                if unit.actor["platform"] == platform:
                    unit.height = y + HEIGHT / 2
                    y += HEIGHT
            yield f'<rect class="frame" x="4" y="{top}" width="{WIDTH - 8}" height="{y - top}" rx="6"/>'
            yield f'<text class="platform" x="10" y="{top + 13}">{platform}</text>'
            y += 10
        self.bottom = y
        self.heights = {unit.actor["name"]: unit.height for unit in reversed(self.units)}
        for tick in self.scale.ticks():
            yield line("grid", self.scale.x(tick), self.top - 6, self.scale.x(tick), y - 10)
            yield f'<text class="small" x="{self.scale.x(tick)}" y="{self.top - 12 - 10 * (self.recording.zero is not None)}" text-anchor="middle">{tick:,}</text>'
            yield self.wall(tick)

    def wall(self, tick: int) -> str:
        """The wall time of a time, if it is known."""
        if self.recording.zero is None:
            return ""
        text = wall_time.clock_of(self.recording.zero.after(tick))[1]
        return f'<text class="small" x="{self.scale.x(tick)}" y="{self.top - 12}" text-anchor="middle">{text}</text>'

    def caption(self) -> Iterator[str]:
        """What the axes show."""
        zero = self.recording.zero
        yield f'<text class="small" x="10" y="{self.top - 12 - 10 * (zero is not None)}">microseconds</text>'
        if zero is not None:
            first = zero.after(self.scale.first)
            yield f'<text class="small" x="10" y="{self.top - 12}">{wall_time.clock_of(first)[0]}, {wall_time.zone_name(first.zone)}</text>'

    def messages(self) -> Iterator[str]:
        """A dashed line for each message, from the reading at which it was sent to the one at which it was taken; near ones are one."""
        peers = {link["from"]: link["to"] for link in self.recording.graph["links"]}
        taken = {(entry.actor, entry.time, entry.step): entry.reading for entry in self.recording.entries if entry.what == "take"}
        drawn = set()
        for entry in self.recording.entries:
            arrived = taken.get((peers[entry.actor], entry.time, entry.step)) if entry.what == "sent" else None
            if arrived is None or not self.scale.shows(entry.reading, arrived):
                continue
            near = entry.actor, int(self.scale.place(entry.reading) // NEAR), int(self.scale.place(arrived) // NEAR)
            if near not in drawn or entry.actor not in self.crowded:
                drawn.add(near)
                yield line("messages" if entry.actor in self.crowded else "message", self.scale.x(entry.reading), self.heights[entry.actor], self.scale.x(arrived), self.heights[peers[entry.actor]])

    def unit(self, unit: Unit, most: int, width: int) -> Iterator[str]:
        """The line of a unit."""
        kind = f'<tspan class="small">{unit.actor["kind"]}</tspan>'
        yield f'<text x="16" y="{unit.height + 4:.1f}">{unit.label} {kind}</text>'
        inside = [firing for firing in unit.firings if any(map(self.scale.shows, (firing.time, firing.reading, firing.deadline)))]
        singles, many = crowds(inside, self.scale, most)
        labels = Labels()
        for firings in many:
            self.crowded.add(unit.actor["name"])
            yield from band(unit, [firing for firing in firings if self.scale.shows(firing.time)] or firings, self.scale, width)
        for firing in singles:
            yield from single(unit, firing, self.scale, labels)

    def rows(self) -> Iterator[str]:
        """When rows were seen, of sensors whose rows aren't a band."""
        for entry in self.recording.entries:
            if entry.what == "row" and self.scale.shows(entry.seen) and entry.actor not in self.crowded:
                y = self.heights[entry.actor]
                yield line("seen", self.scale.x(entry.seen), y - 7, self.scale.x(entry.seen), y + 7)

    def legend(self, drawn: str, width: int) -> Iterator[str]:
        """What the signs are that are in the picture, each drawn once more."""
        items = [('class="event"', '<circle class="event key" cx="{x}" cy="{y}" r="3.2"/>', "time of the event"),
                 ('class="acted"', '<circle class="acted key" cx="{x}" cy="{y}" r="3.2"/>', "reading of the platform's clock at which it fired"),
                 ('class="early"', '<circle cx="{x}" cy="{y}" r="3.2" fill="#16a34a"/>', "fired before that time"),
                 ('class="deadline"', '<path class="deadline key" d="M{x} {y}m-4 -5h4v10h-4"/>', "deadline"),
                 ('class="miss"', '<path class="miss key" d="M{x} {y}m-3 -3l6 6m0 -6l-6 6"/>', "fired past its deadline; below a band a mark"),
                 ('class="seen"', '<path class="seen key" d="M{x} {y}m0 -5v10"/>', "row seen"),
                 ('class="message"', '<path class="message key" d="M{x} {y}m-5 0h12"/>', "message"),
                 ('class="messages"', '<path class="messages key" d="M{x} {y}m-4 -4v8m4 -8v8m4 -8v8"/>', "many messages"),
                 ('class="band"', '<path class="band key" stroke-width="6" d="M{x} {y}m0 -4v8"/>',
                  f"many events: the range of their values in each {width} points, on the scale of their line; their deadlines and rows seen are left out")]
        x, y = 16.0, self.bottom + 8
        for kind, sign, text in items:
            if kind in drawn:
                if x + 12 + SMALL_SIGN * len(text) > WIDTH - 10 and x > 16:
                    x, y = 16.0, y + 13
                yield sign.format(x=f"{x:.1f}", y=f"{y:.1f}") + f'<text class="small" x="{x + 8:.1f}" y="{y + 3:.1f}">{text}</text>'
                x += 28 + (SMALL_SIGN - 0.9) * len(text)
        self.end = y + 14

    def text(self) -> str:
        """The picture."""
        frames = [*self.frames(), *self.caption()]
        most = min(MOST_ON_A_LINE, MOST_SINGLE // max(1, len(self.units)))
        width = max(2, -(-WIDTH * len(self.units) // MOST_COLUMNS))
        units = [part for unit in self.units for part in self.unit(unit, most, width)]
        # Units come first, which says whose events are crowded; messages are drawn below them.
        lines = [*frames, *self.messages(), *units, *self.rows()]
        lines += self.legend("\n".join(lines), width)
        size = f'width="{WIDTH}" height="{self.end:.0f}" viewBox="0 0 {WIDTH} {self.end:.0f}"'
        head = [f'<svg xmlns="http://www.w3.org/2000/svg" {size}>', f"<style>{STYLE}</style>", '<rect width="100%" height="100%" fill="#fff"/>']
        return "\n".join(filter(None, [*head, *lines, "</svg>"])) + "\n"


def svg_text(recording: Recording, first: Optional[int], last: Optional[int]) -> str:
    """The timeline from the one time to the other."""
    return Picture(recording, first, last).text()
