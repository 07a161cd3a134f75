"""Signals as a value change dump, and a view of them for GTKWave."""
from __future__ import annotations

import math
import os
from dataclasses import dataclass
from heapq import merge
from itertools import islice
from operator import itemgetter
from typing import Iterator, Optional

from ptides import wall_time
from ptides.waves.recording import Recording

# How many lines are joined at a time.
BLOCK = 1 << 17


@dataclass
class Signal:
    """A signal of the VCD file: its path, its changes as stamp and value, and its value before the first."""

    path: tuple[str, ...]
    changes: list[tuple[int, int]]
    kind: str = "integer"
    before: Optional[int] = None

    def part(self, first: Optional[int], last: Optional[int]) -> "Signal":
        """The changes from one time to another; the value before them is the last one before."""
        if first is None and last is None:
            return self
        earlier = [value for stamp, value in self.changes if first is not None and stamp < first]
        inside = [(stamp, value) for stamp, value in self.changes if (first is None or stamp >= first) and (last is None or stamp <= last)]
        return Signal(self.path, inside, self.kind, earlier[-1] if earlier else self.before)


def signals_of(recording: Recording, first: Optional[int] = None, last: Optional[int] = None) -> list[Signal]:
    """All signals, from one time to another."""
    return [signal.part(first, last) for signal in all_signals(recording)]


def all_signals(recording: Recording) -> list[Signal]:
    """All signals: by the times of events, and by the readings of clocks; at last how many events were missed so far."""
    signals = []
    given = [(names, recording.values.get((actor["name"], output), [])) for actor, output, names in recording.outputs()]
    given = [(names, values) for names, values in given if values]
    for names, values in given:
        signals.append(Signal(("events", *names), [(value.time, value.value) for value in values]))
    for names, values in given:
        signals.append(Signal(("marks", *names), [(value.time, 1) for value in values], "event"))
    for names, values in given:
        fired = sorted((value.reading, value.time, value.step, value.value) for value in values)
        signals.append(Signal(("fired", *names), [(reading, value) for reading, _, _, value in fired]))
    for scope, what in (("seen", "row"), ("sent", "sent"), ("taken", "take")):
        for actor in recording.actors():
            found = recording.logged.get((what, actor["name"]))
            if found:
                changes = [(entry.reading if entry.seen is None else entry.seen, entry.value) for entry in found]
                signals.append(Signal((scope, actor["platform"], actor["name"]), changes))
    late: dict[str, list[int]] = {}
    for miss in recording.misses:
        late.setdefault(miss.actor, []).append(miss.reading)
    for actor in recording.actors():
        if actor["kind"] in ("actuator", "send"):
            changes = [(reading, number) for number, reading in enumerate(sorted(late.get(actor["name"], [])), 1)]
            signals.append(Signal(("missed", actor["platform"], actor["name"]), changes, before=0))
    return signals


def identifier(number: int) -> str:
    """The short name of a signal: digits of base 94, from `!` to `~`."""
    return (identifier(number // 94) if number >= 94 else "") + chr(33 + number % 94)


def scopes(signals: list[Signal]) -> Iterator[str]:
    """The declarations; signals of one scope follow each other."""
    inside: tuple[str, ...] = ()
    for number, signal in enumerate(signals):
        above = signal.path[:-1]
        shared = len(os.path.commonprefix([inside, above]))
        yield from ["$upscope $end"] * (len(inside) - shared)
        yield from (f"$scope module {name} $end" for name in above[shared:])
        size = 1 if signal.kind == "event" else 64
        yield f"$var {signal.kind} {size} {identifier(number)} {signal.path[-1]} $end"
        inside = above
    yield from ["$upscope $end"] * len(inside)


def bits(value: Optional[int]) -> str:
    """A value as VCD has it; unknown if there is none."""
    return "bx" if value is None else f"b{value & (2**64 - 1):b}"


def numbered(number: int, signal: Signal) -> Iterator[tuple[int, int, int, Optional[int]]]:
    """The changes of a signal in the order of time, each with the number of the signal and its own."""
    changes = sorted(signal.changes, key=itemgetter(0))
    return ((stamp, number, order, value) for order, (stamp, value) in enumerate(changes))


def vcd_lines(recording: Recording, first: Optional[int], last: Optional[int]) -> Iterator[str]:
    """The lines of a value change dump."""
    signals, now = signals_of(recording, first, last), first or 0
    zero = [] if recording.zero is None else [f"$comment 0 is {wall_time.text_of(recording.zero)} $end"]
    yield from ["$version ptides wave $end", *zero, "$timescale 1 us $end", *scopes(signals), "$enddefinitions $end", f"#{now}", "$dumpvars"]
    yield from (f"{bits(signal.before)} {identifier(number)}" for number, signal in enumerate(signals) if signal.kind != "event")
    yield "$end"
    begun, names = now, [("1" if signal.kind == "event" else " ") + identifier(number) for number, signal in enumerate(signals)]
    for stamp, number, _, value in merge(*(numbered(number, signal) for number, signal in enumerate(signals))):
        if stamp != now:
            now = stamp
            yield f"#{now}"
        name = names[number]
        yield name if name[0] == "1" else bits(value) + name
    yield f"#{now + (now - begun) // 20 + 1 if last is None else max(last, now + 1)}"


def vcd_text(recording: Recording, first: Optional[int] = None, last: Optional[int] = None) -> str:
    """The signals as a value change dump. Of several values at one time, steps of one tag, the last stays."""
    lines, blocks = vcd_lines(recording, first, last), []
    # A list of all lines would take several times as much memory as the text.
    while block := list(islice(lines, BLOCK)):
        blocks.append("\n".join(block) + "\n")
    return "".join(blocks)


GTKW_SIGNED, GTKW_PLAIN, GTKW_COMMENT, GTKW_STEPS, GTKW_HIGHER = "@420", "@28", "@200", "@88420", "@20000"
TITLES = {"events": "time of events", "seen": "rows as seen", "fired": "as acted", "missed": "missed so far"}


def gtkw_text(recording: Recording, vcd: str, first: Optional[int] = None, last: Optional[int] = None) -> str:
    """A view for GTKWave: events of each platform, rows as they were seen, actuators as they acted, and what was missed."""
    signals = signals_of(recording, first, last)
    found = [signal.changes for signal in signals if signal.changes]
    # The view begins with the first change: before it nothing is known.
    start = min((min(stamp for stamp, _ in changes) for changes in found), default=0) if first is None else first
    # The zoom is how often the time that 200 points show was halved; some 720 points show the waves.
    end = max((max(stamp for stamp, _ in changes) for changes in found), default=start) if last is None else last
    zoom = -math.log2(((end - start) * 1.05 + 1) / 3.6)
    lines = ["[*] a view of GTKWave, written by ptides wave", f'[dumpfile] "{vcd}"', f"[timestart] {start}", "[size] 1280 800", "[pos] -1 -1"]
    lines += [f"*{zoom:.6f} {start}" + " -1" * 27, "[treeopen] events.", "[sst_width] 150", "[signals_width] 260", "[sst_expanded] 1"]
    for scope, title in TITLES.items():
        for platform in recording.graph["platforms"]:
            shown = shown_signals(recording, signals, scope, platform)
            lines += [GTKW_COMMENT, f"-{platform}, {title}"] if shown else []
            for signal in shown:
                lines += view_of(recording, signal)
    return "\n".join(lines) + "\n"


def shown_signals(recording: Recording, signals: list[Signal], scope: str, platform: str) -> list[Signal]:
    """The signals of a scope that the view shows: of those as acted actuators alone, and counts of misses only if there are some."""
    kinds, late = {actor["name"]: actor["kind"] for actor in recording.actors()}, {miss.actor for miss in recording.misses}
    shown = [signal for signal in signals if signal.path[:2] == (scope, platform)]
    if scope == "fired":
        return [signal for signal in shown if kinds[signal.path[2]] == "actuator"]
    return [signal for signal in shown if scope != "missed" or signal.path[2] in late]


def view_of(recording: Recording, signal: Signal) -> list[str]:
    """The lines for a signal. One of many values is drawn as steps; those of sensors and actuators have marks below them."""
    ends = {actor["name"] for actor in recording.actors() if actor["kind"] in ("sensor", "actuator")}
    many = len({value for _, value in signal.changes}) > 8
    lines = [GTKW_STEPS if many else GTKW_SIGNED, ".".join(signal.path)] + [GTKW_HIGHER, "-", "-"] * many
    if signal.path[0] == "events" and signal.path[2] in ends:
        lines += [GTKW_PLAIN, f"+{{{signal.path[-1]}, marks}} " + ".".join(("marks", *signal.path[1:]))]
    return lines
