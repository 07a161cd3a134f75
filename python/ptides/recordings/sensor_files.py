"""Sensor files: a row for each sample, with its time by a rule that was stated."""
from __future__ import annotations

from decimal import Decimal
from itertools import islice
from typing import Iterable, NamedTuple, Optional

from ptides import limits, wall_time
from ptides.program import Fault
from ptides.ratios import Linear
from ptides.recordings.candump import text_of
from ptides.recordings.samples import MOST_SEEN, MOST_TIME, Asked, Sample, fault_at, lines_of, place

LEAST_VALUE, MOST_VALUE = -(2**63), 2**63 - 1


class Row(NamedTuple):
    """A row of the sensor file, and the line of the recording that it is from."""

    line: int
    time: int
    seen: int
    value: int


def time_of(asked: Asked, sample: Sample) -> int:
    """The time of a row by the rule that was stated."""
    if sample.time is not None:
        return sample.time
    time = sample.seen - (asked.latency or 0)
    return time if asked.period is None else time - (time - asked.phase) % asked.period


class Values:
    """The whole values of samples: the number times --scale, and --shift more."""

    def __init__(self, asked: Asked):
        self.asked, self.linear = asked, Linear(asked.scale, asked.shift)

    def of(self, sample: Sample) -> int:
        """The value of a sample."""
        top, bottom = self.linear.of(sample.number)
        if self.asked.round:
            # Halves go away from 0.
            whole, rest = (2 * abs(top) + bottom) // (2 * bottom) * (-1 if top < 0 else 1), 0
        else:
            whole, rest = divmod(top, bottom)
        if not LEAST_VALUE <= whole <= MOST_VALUE:
            shown = whole if abs(whole) < 10**40 else f"{Decimal(whole):.3e}"
            raise fault_at(self.asked, sample.line, f"the value {shown} does not fit 64 bits")
        if rest:
            raise fault_at(self.asked, sample.line, f"the value {top / bottom:.12g} is not whole: choose another --scale, or --round")
        return whole


def check_row(asked: Asked, row: Row, before: Optional[Row]) -> None:
    """Refuses what a sensor file may not have."""
    wrong = None
    if row.seen < 0 or row.time < 0:
        wrong = f"time {row.time}, seen {row.seen}: below 0; choose a smaller --zero, or begin later with --from"
    elif row.time > MOST_TIME or row.seen > MOST_SEEN:
        wrong = f"time {row.time}, seen {row.seen}: too large; choose a --zero"
    elif row.seen < row.time:
        wrong = f"seen {row.seen} is before its time {row.time}"
    elif before and row.seen < before.seen:
        wrong = f"seen falls: {row.seen} after {before.seen} of line {before.line}"
    elif before and row.time == before.time:
        wrong = f"two rows of one time: {row.time} is also the time of line {before.line}; {better_rule(asked)}--last takes the last of them"
    elif before and row.time < before.time:
        wrong = f"time falls: {row.time} after {before.time} of line {before.line}"
    if wrong:
        raise fault_at(asked, row.line, wrong)


def is_taken(asked: Asked, sample: Sample) -> bool:
    """Whether a sample is from --from to --to."""
    return (asked.first is None or sample.seen >= asked.first) and (asked.last is None or sample.seen <= asked.last)


def phases(stamps: list[int], period: int, latency: int) -> Optional[range]:
    """The phases with which each of the stamps has a time of its own. They lie in the longest part of a period without a stamp."""
    places = sorted({(stamp - latency) % period for stamp in stamps})
    gaps = [(after - before, after) for before, after in zip(places, [*places[1:], places[0] + period])]
    length, last = max(gaps)
    times = {(stamp - latency - last) // period for stamp in stamps}
    return range(last - length + 1, last + 1) if len(times) == len(stamps) else None


def bound_with(stamps: list[int], period: int, phase: int, latency: int) -> int:
    """The bound that these stamps need with a phase."""
    return latency + max((stamp - latency - phase) % period for stamp in stamps)


def least_bound(asked: Asked, stamps: list[int], bound: int) -> str:
    """The phase that needs the least bound of all that fit; nothing if that isn't much less than another bound."""
    found = phases(stamps, asked.period, asked.latency or 0) if stamps else None
    if found is None:
        return ""
    phase = found[-1] % asked.period
    least = bound_with(stamps, asked.period, phase, asked.latency or 0)
    return f"with --phase {phase} a bound of {least} is enough, instead of {bound}" if 2 * least <= bound else ""


def proposal(asked: Asked, period: int, signals: list[list[int]]) -> str:
    """Which phases give each row of each of these signals, by their stamps, a time of its own; nothing if there is none."""
    latency = asked.latency or 0
    found = [phases(stamps, period, latency) for stamps in signals if stamps]
    if not found or None in found:
        return ""
    # A phase and one that is a period less are the same; the smaller ones are shown. A phase of 0 is the usual one.
    choices = [0, *(fit[-1] % period for fit in found)]
    phase = next((each for each in choices if all((each - fit[0]) % period < len(fit) for fit in found)), None)
    if phase is None:
        return ""
    # Rows before the first time are left out.
    start = f" --from {phase + latency}" if min(map(min, filter(None, signals))) < phase + latency else ""
    if len(found) > 1:
        return f"--phase {phase}{start} gives each row of each signal a time of its own"
    more = period if found[0][-1] >= period else 0
    low, high = found[0][0] - more, found[0][-1] - more
    others = f" (as do those from {low} to {high})" if low < high else ""
    better = least_bound(asked, signals[0], bound_with(signals[0], period, phase, latency))
    return f"--phase {phase}{start} gives each row a time of its own{others}" + (f"; {better}" if better else "")


def stamps_of(asked: Asked, samples: Iterable[Sample]) -> list[int]:
    """The stamps of the first samples from --from to --to."""
    return [sample.seen for sample in islice(samples, limits.rows_limit(asked.claims)) if is_taken(asked, sample)]


def better_rule(asked: Asked) -> str:
    """What to change in the rule, if two rows have one time; nothing if the recording can be read only once."""
    asked.passed.clear()
    try:
        found = proposal(asked, asked.period, [stamps_of(asked, asked.samples(asked))]) if asked.period else ""
    except Fault:
        return ""
    return f"{found}, and " if found else ""


def too_many_rows(asked: Asked, rows: list[Row], others: Iterable[Sample]) -> Fault:
    """The fault that there are too many rows: up to where they fit, and in how many parts the recording goes."""
    last, most = next((row.seen for row in reversed(rows) if row.seen < rows[-1].seen), 0), limits.rows_limit(asked.claims)
    try:
        count = len(rows) + sum(is_taken(asked, sample) for sample in others)
        parts = f"; all are {count} rows, so {-(-count // most)} parts or more, or {limits.option_for(limits.claims_for(count))}"
    except Fault:
        # What is wrong further on is said of the part in which it is.
        parts = ""
    return fault_at(asked, rows[-1].line, f"more than {most} rows; choose a part with --from and --to: --to {last} takes the first rows that fit{parts}")


def rows_of(asked: Asked, samples: Iterable[Sample]) -> list[Row]:
    """All rows, from --from to --to. If asked for it the last of several rows of one time is taken."""
    rows: list[Row] = []
    values, samples, most = Values(asked), iter(samples), limits.rows_limit(asked.claims)
    for sample in samples:
        if not is_taken(asked, sample):
            continue
        row = Row(sample.line, time_of(asked, sample), sample.seen, values.of(sample))
        if asked.take_last and rows and row.time == rows[-1].time and row.seen >= rows[-1].seen:
            asked.passed["rows before the last of one time"] += 1
            rows.pop()
        check_row(asked, row, rows[-1] if rows else None)
        rows.append(row)
        if len(rows) > most:
            raise too_many_rows(asked, rows, samples)
    if not rows:
        raise Fault(f"{asked.recording}: no value is in it, or none from --from to --to")
    return rows


def text_of_rows(rows: list[Row]) -> str:
    """The sensor file."""
    return "".join(["time,seen,value\n", *(f"{row.time},{row.seen},{row.value}\n" for row in rows)])


def report(asked: Asked, rows: list[Row]) -> str:
    """What the recording is like, what was passed over, and the bound that it needs."""
    waits = sorted(row.seen - row.time for row in rows)
    last = max(rows, key=lambda row: row.seen - row.time)
    most = waits[min(len(waits) - 1, len(waits) * 999 // 1000)]
    zero = [] if asked.unit == "iso" else [f"{float(asked.zero or 0):.15g}"]
    zero += [] if asked.wall is None else [wall_time.text_of(asked.wall)]
    lines = [
        f"{len(rows)} rows, from {rows[0].time} to {rows[-1].time}; 0 is the stamp {', '.join(zero)}",
        f"seen - time: least {waits[0]}, median {waits[len(waits) // 2]}, of 99.9 % at most {most}, greatest {waits[-1]} ({place(asked, last.line)})",
    ]
    if len(rows) > 1:
        before, after = max(zip(rows, rows[1:]), key=lambda pair: pair[1].time - pair[0].time)
        lines.append(f"longest time between two rows: {after.time - before.time}, before {place(asked, after.line)}")
    better = least_bound(asked, [row.seen for row in rows], waits[-1]) if asked.period else ""
    lines += [better] if better else []
    if asked.passed:
        lines.append("passed over: " + ", ".join(f"{what} {count}" for what, count in asked.passed.items()))
    return "\n".join([*lines, f"this recording needs a bound of {waits[-1]}"]) + "\n"


def line_of_row(asked: Asked, rows: list[Row]) -> str:
    """The line of the recording from which a row is."""
    if not 1 <= asked.row <= len(rows):
        raise Fault(f"there is no row {asked.row}: the rows are 1 to {len(rows)}")
    row = rows[asked.row - 1]
    if asked.frames:
        text = next(text_of(frame) for frame in asked.frames(asked.recording) if frame.line == row.line)
    else:
        text = next(text for line, text in lines_of(asked.recording) if line == row.line)
    return f"row {asked.row}: time {row.time}, seen {row.seen}, value {row.value}\n{place(asked, row.line)}: {text.rstrip()}\n"
