"""Tables with names in a line of their own."""
from __future__ import annotations

import csv
import re
from fractions import Fraction
from itertools import islice
from typing import Any, Iterator, Optional, Union

from ptides import wall_time
from ptides.program import Fault
from ptides.ratios import MOST_DIGITS, Ratio, ratio_of
from ptides.recordings.samples import UNITS, Asked, Sample, fault_at, lines_of

# In how many lines names are looked for, to propose --preamble.
MOST_PREAMBLE = 200
# Texts of cells that programs write for a number that isn't there.
NO_NUMBERS = ("nan", "na", "n/a", "null", "none", "inf", "-inf", "-", "--", "bad", "no data")


def number_of(asked: Asked, line: int, column: str, text: str) -> Ratio:
    """The number in a cell."""
    plain = text.strip()
    if asked.decimal != ".":
        plain = plain.replace(asked.decimal, ".")
    found = ratio_of(plain)
    if found is None:
        if len(plain) > MOST_DIGITS:
            raise fault_at(asked, line, f"column {column}: no number has more than {MOST_DIGITS} digits")
        better = f"; --missing {plain} passes over such cells" if plain.lower() in NO_NUMBERS else ""
        raise fault_at(asked, line, f"column {column}: `{text}` is no number{better}")
    return found


class StampReader:
    """Gives the microseconds after 0 of a cell. If no zero is stated for stamps of ISO 8601, it is the first one's whole second."""

    def __init__(self, asked: Asked):
        self.asked, self.is_iso = asked, asked.unit == "iso"
        self.unit = UNITS["s" if self.is_iso else asked.unit]
        # An hour that comes twice is told apart by the order in a column.
        self.columns: dict[str, wall_time.Stamps] = {}
        self.zero: Optional[Union[int, Fraction]] = asked.zero

    def stamp(self, line: int, column: str, text: str) -> Ratio:
        """The stamp in its unit."""
        if not self.is_iso:
            return self.number(line, column, text)
        if column not in self.columns:
            self.columns[column] = wall_time.Stamps(self.asked.zone)
        try:
            return self.columns[column].ratio(text)
        except Fault as fault:
            raise fault_at(self.asked, line, f"column {column}: {fault}") from fault

    def number(self, line: int, column: str, text: str) -> Ratio:
        """A stamp that is a number."""
        try:
            return number_of(self.asked, line, column, text)
        except Fault as fault:
            if not re.search("[0-9]{4}-?[0-9]{2}-?[0-9]{2}[T ]", text):
                raise
            raise fault_at(self.asked, line, f"column {column}: `{text}` is no number; --unit iso reads stamps of ISO 8601") from fault

    def microseconds(self, line: int, column: str, text: str) -> int:
        """The microseconds from 0 on, cut to whole ones."""
        top, bottom = self.stamp(line, column, text)
        if self.zero is None:
            self.zero = self.asked.zero = Fraction(top // bottom if self.is_iso else 0)
        zero, unit = self.zero, self.unit
        return (top * zero.denominator - zero.numerator * bottom) * unit.numerator // (bottom * zero.denominator * unit.denominator)


def columns_of(asked: Asked) -> list[str]:
    """The columns that are needed."""
    return [column for column in (asked.stamp, asked.value, asked.time, *(column for column, _ in asked.where)) if column is not None]


def check_columns(asked: Asked, names: list[str]) -> None:
    """All columns that are asked for have to be there. If a later line has them, that is said."""
    missing = next((column for column in columns_of(asked) if column not in names), None)
    if missing is None:
        return
    better = ""
    if not asked.preamble:
        lines = csv.reader((text for _, text in islice(lines_of(asked.recording), MOST_PREAMBLE)), delimiter=asked.delimiter)
        index = next((index for index, record in enumerate(lines) if set(columns_of(asked)) <= set(record)), 0)
        better = f"; line {index + 1} has it: --preamble {index}" if index else ""
    raise Fault(f"{asked.recording}: no column `{missing}`; its columns are {', '.join(names) or 'none'}{better}")


def is_missing(asked: Asked, text: str) -> bool:
    """Whether a cell has no value; counts it."""
    plain = text.strip()
    if plain and plain.lower() not in asked.missing:
        return False
    asked.passed[f"cells `{plain}`" if plain else "empty cells"] += 1
    return True


def records_of(asked: Asked) -> Iterator[tuple[int, list[Any]]]:
    """The records after the line of names, each with its line, and its cells in the order of `columns_of`; `None` is a cell that isn't there."""
    lines = (text for _, text in islice(lines_of(asked.recording), asked.preamble, None))
    reader = csv.reader(lines, delimiter=asked.delimiter, strict=True)
    try:
        names = next(reader, [])
        check_columns(asked, names)
        # Of several columns of one name the last counts.
        places = {name: place for place, name in enumerate(names)}
        wanted = [places[column] for column in columns_of(asked)]
        least = max(wanted) + 1
        for record in islice(filter(None, reader), asked.skip, None):
            cells = record if len(record) >= least else [*record, *[None] * (least - len(record))]
            yield asked.preamble + reader.line_num, [cells[place] for place in wanted]
    except csv.Error as fault:
        raise fault_at(asked, asked.preamble + reader.line_num, f"no CSV: {fault}") from fault


def csv_samples(asked: Asked) -> Iterator[Sample]:
    """Each record that has a value in the asked column."""
    microseconds = StampReader(asked).microseconds
    texts = [text for _, text in asked.where]
    for line, (stamp, value, *others) in records_of(asked):
        time = None if asked.time is None else others.pop(0)
        # What is left are the cells of --where.
        if others != texts or is_missing(asked, value or ""):
            continue
        seen = microseconds(line, asked.stamp, stamp or "")
        times = () if asked.time is None else (microseconds(line, asked.time, time or ""),)
        yield Sample(line, seen, number_of(asked, line, asked.value, value), *times)
