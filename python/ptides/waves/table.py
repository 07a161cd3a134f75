"""A run as one table, for pandas."""
from __future__ import annotations

from typing import Any, Iterator

from ptides import wall_time
from ptides.waves.recording import Recording

COLUMNS = ["what", "platform", "actor", "output", "time", "step", "value", "reading", "deadline", "missed", "seen", "number"]


def records_of(recording: Recording) -> Iterator[tuple[Any, ...]]:
    """Values of all outputs, and then the log; what a record has not is `None`."""
    for actor, output, _ in recording.outputs():
        name, is_timed = actor["name"], actor["kind"] in ("actuator", "send")
        for value in recording.values.get((name, output), []):
            late = int((name, value.time, value.step) in recording.missed)
            ends = (value.time + actor["slack"], late) if is_timed else (None, None)
            where = None if is_timed else output
            yield ("event", actor["platform"], name, where, value.time, value.step, value.value, value.reading, *ends, None, None)
    for entry in recording.entries:
        tag = (entry.time, entry.step, entry.value, entry.reading)
        yield (entry.what, entry.platform, entry.actor, None, *tag, None, None, entry.seen, entry.number)


def csv_text(recording: Recording, wall: bool = False) -> str:
    """The table; if asked for with the wall time of each `time` as the last column."""
    lines = [",".join(COLUMNS + ["wall"] * wall)]
    for record in records_of(recording):
        cells = ["" if cell is None else str(cell) for cell in record]
        if wall:
            cells.append("" if record[4] is None else wall_time.text_of(recording.zero.after(record[4])))
        lines.append(",".join(cells))
    return "\n".join(lines) + "\n"
