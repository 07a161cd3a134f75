"""Wall time and microseconds.

Times in graphs and tables are whole microseconds from a zero. What has wall time, as a Series with a DatetimeIndex, is brought to them.
"""
from __future__ import annotations

from datetime import date, timedelta
from fractions import Fraction
from numbers import Number
from typing import Any, Iterable

from ptides import frames, wall_time
from ptides.program import Fault


def microseconds(value: Any, zero: Any, what: str) -> int:
    """A time in microseconds: a number is one, a length of time is counted, and a wall time is counted from the zero."""
    if isinstance(value, timedelta):
        return value // timedelta(microseconds=1)
    if isinstance(value, (date, str)):
        return span_of(value, zero, what) // timedelta(microseconds=1)
    try:
        return value.__index__()
    except AttributeError:
        raise Fault(f"{what}: {value!r} is no time: a whole number of microseconds, a timedelta, or a time of the wall clock") from None


def span_of(stamp: Any, zero: Any, what: str) -> timedelta:
    """How long after the zero a wall time is."""
    found = stamp_of(stamp, what)
    if zero is None:
        raise Fault(f"{what}: {stamp} is a time of the wall clock, and no sensor has such times: name a zero")
    try:
        return found - stamp_of(zero)
    except TypeError as fault:
        raise Fault(f"{what}: of {stamp} and the zero, {zero}, one has a time zone and one has none") from fault


def numbers_of(index: Any, zero: Any, what: str) -> Any:
    """The times of an index or a column in whole microseconds; parts of a microsecond are cut."""
    pandas = frames.pandas()

    index = pandas.Index(index)
    if isinstance(index, pandas.DatetimeIndex):
        try:
            index = index - stamp_of(zero)
        except TypeError as fault:
            raise Fault(f"{what}: of the stamps and the zero one has a time zone and one has none: {zero}") from fault
    if isinstance(index, pandas.TimedeltaIndex):
        if index.hasnans:
            raise Fault(f"{what}: a time is missing")
        return index // pandas.Timedelta(microseconds=1)
    if not pandas.api.types.is_integer_dtype(index):
        raise Fault(f"{what}: times are whole microseconds, lengths of time or times of the wall clock, and not {index.dtype}: "
                    "pandas.to_timedelta(times, unit='s') makes them of seconds")
    return index


def second_before(stamps: Iterable[Any]) -> Any:
    """The whole second at or before the first of these wall times; `None` if there is none."""
    first = min(stamps, default=None)
    return None if first is None else first.floor("s")


def stamp_of(zero: Any, what: str = "zero") -> Any:
    """A wall time as pandas has it; a number of seconds since the start of 1970, which only a file has, is in UTC."""
    if zero is None:
        return None
    pandas = frames.pandas()

    try:
        stamp = pandas.Timestamp(wall_time.text_of(zero) if isinstance(zero, Fraction) else zero)
    except (ValueError, TypeError, OverflowError):
        stamp = pandas.NaT
    if stamp is pandas.NaT or isinstance(zero, Number) and not isinstance(zero, Fraction):
        raise Fault(f"{what}: {zero!r} is no time of the wall clock, as 2026-03-29T00:58:00Z")
    return stamp
