"""Wall time: stamps of ISO 8601, and which of them is 0 in a sensor file.

Times of a graph are microseconds after a zero. If the recording says when that was, `ptides rows` keeps it beside the sensor file,
as `level.zero` beside `level.csv`: one line, a stamp of ISO 8601. Stamps are seconds since the start of 1970, as fractions, with the
zone in which they were written.

    >>> from ptides import wall_time
    >>> stamp = wall_time.seconds("2026-03-29T01:58:00,5+01:00")
    >>> wall_time.text_of(stamp), wall_time.text_of(stamp.after(1_500_000)), float(stamp)
    ('2026-03-29T01:58:00.5+01:00', '2026-03-29T01:58:02+01:00', 1774745880.5)
"""
from __future__ import annotations

import re
from datetime import date, datetime, timedelta, timezone, tzinfo
from fractions import Fraction
from functools import lru_cache
from pathlib import Path
from typing import Any, Iterable, Optional, Union

from ptides.program import Fault
from ptides.ratios import Ratio

STAMP = re.compile(
    r"(?P<year>\d{4})(?:(?P<dash>-?)(?P<month>\d\d)(?P=dash)(?P<day>\d\d)|-?W(?P<week>\d\d)-?(?P<weekday>[1-7])|-?(?P<ordinal>\d{3}))"
    r"(?:[Tt ](?P<hour>\d\d)(?::?(?P<minute>\d\d)(?::?(?P<second>\d\d)(?:[.,](?P<fraction>\d{1,12}))?)?)? ?(?P<zone>[Zz]|[+-]\d\d(?::?\d\d)?)?)?")
EPOCH = date(1970, 1, 1)
# The first and the last second that can be written in each zone: one day within the years 1 to 9999.
LEAST, MOST = ((day - EPOCH).days * 86_400 for day in (date(1, 1, 2), date(9999, 12, 31)))
NO_DATE = "a time of the run is before the year 1 or after the year 9999"
# The first stamp that is taken for wall time where a recording may count from its own start instead: in 1973.
FIRST_WALL_TIME = 10**8


class Stamp(Fraction):
    """The seconds since the start of 1970, and the zone in which they are written: that of the text they are from, or UTC."""

    def __new__(cls, seconds: Union[int, Fraction], zone: tzinfo = timezone.utc) -> "Stamp":
        self = super().__new__(cls, seconds)
        self.zone = zone
        return self

    def after(self, time: Union[int, Fraction]) -> "Stamp":
        """The stamp that many microseconds later, in the same zone."""
        return Stamp(self + Fraction(time, 10**6), self.zone)

    def __reduce__(self) -> tuple[Any, ...]:
        return Stamp, (Fraction(self.numerator, self.denominator), self.zone)

    def __copy__(self) -> "Stamp":
        return self

    def __deepcopy__(self, memo: Any) -> "Stamp":
        return self


@lru_cache(maxsize=64)
def offset_of(text: str) -> timezone:
    """The zone that is written as `Z`, `+01`, `+0100` or `+01:00`."""
    if text in "Zz":
        return timezone.utc
    digits = text[1:].replace(":", "").ljust(4, "0")
    return timezone((-1 if text[0] == "-" else 1) * timedelta(hours=int(digits[:2]), minutes=int(digits[2:])))


@lru_cache(maxsize=64)
def offset_seconds(text: str) -> int:
    """How far that zone is ahead of UTC."""
    return int(offset_of(text).utcoffset(None).total_seconds())


def zone_of(text: str) -> tzinfo:
    """A zone by its name, as UTC or Europe/Berlin, or by its offset, as +01:00."""
    from zoneinfo import ZoneInfo
    try:
        if re.fullmatch(r"[Zz]|[+-]\d\d(?::?\d\d)?", text):
            return offset_of(text)
        return timezone.utc if text == "UTC" else ZoneInfo(text)
    except (LookupError, ValueError, OSError) as fault:
        raise Fault(f"`{text}` is no time zone, as UTC, Europe/Berlin or +01:00") from fault


class Stamps:
    """Reads stamps of ISO 8601. Those without a zone are of `zone`; an hour that comes twice there is told apart by the order."""

    def __init__(self, zone: Optional[tzinfo] = None):
        self.zone, self.last = zone, 0

    def ratio(self, text: str) -> Ratio:
        """The seconds since the start of 1970. What is no stamp, or one that never was, raises a `Fault`."""
        found = matched(text)
        try:
            whole = self.whole(found, text)
            if not LEAST <= whole < MOST:
                raise ValueError("date value out of range")
        except (ValueError, OverflowError) as fault:
            raise Fault(f"`{text}` is no stamp of ISO 8601: {fault}") from fault
        self.last = whole
        digits = found["fraction"] or ""
        scale = 10 ** len(digits)
        return Ratio(whole * scale + int(digits or 0), scale)

    def whole(self, found: "re.Match[str]", text: str) -> int:
        """The whole seconds of a text of the right form."""
        days = days_to(*found.group("year", "month", "day", "week", "weekday", "ordinal"))
        parts = found.group("hour", "minute", "second")
        hour, minute, second = int(parts[0] or 0), int(parts[1] or 0), int(parts[2] or 0)
        if hour > 24 or minute > 59 or second > 60 or hour == 24 and (minute or second):
            raise ValueError("the time of day is out of range")
        local = days * 86_400 + hour * 3600 + minute * 60 + second
        if found["zone"]:
            return local - offset_seconds(found["zone"])
        if self.zone is None:
            raise Fault(f"the stamp `{text}` has no zone: --zone names it, as UTC or Europe/Berlin")
        return self.from_local(local, text)

    def from_local(self, local: int, text: str) -> int:
        """The seconds since the start of 1970 for a time of the clocks in the zone."""
        naive = datetime(1970, 1, 1) + timedelta(seconds=local)
        found = [local - int(naive.replace(tzinfo=self.zone, fold=fold).utcoffset().total_seconds()) for fold in (0, 1)]
        if found[0] > found[1]:
            raise Fault(f"the stamp `{text}` never was: the clocks of {self.zone} were put forward over it")
        return next((each for each in found if each >= self.last), found[0])


def matched(text: str) -> "re.Match[str]":
    """The parts of a stamp."""
    found = STAMP.fullmatch(text.strip())
    if found is None:
        raise Fault(f"`{text}` is no stamp of ISO 8601, as 2026-03-29T00:58:00Z")
    return found


@lru_cache(maxsize=512)
def days_to(year: str, month: Optional[str], day: Optional[str], week: Optional[str], weekday: Optional[str], ordinal: Optional[str]) -> int:
    """The days from the start of 1970 to a day: by month, by week or by its number in the year."""
    if week:
        found = date.fromisocalendar(int(year), int(week), int(weekday))
    elif ordinal:
        found = date(int(year), 1, 1) + timedelta(days=int(ordinal) - 1)
        if found.year != int(year):
            raise ValueError("the year has no such day")
    else:
        found = date(int(year), int(month), int(day))
    return (found - EPOCH).days


def seconds(text: str, zone: Optional[tzinfo] = None) -> Stamp:
    """The seconds since the start of 1970 for one stamp, which keep its zone, or else the one that is named."""
    stamp = Fraction(*Stamps(zone).ratio(text))
    written = matched(text)["zone"]
    return Stamp(stamp, offset_of(written) if written else zone)


def text_of(stamp: Fraction) -> str:
    """A stamp as text, in its zone or else in UTC, with as many digits as it has, nine at most."""
    whole = stamp.numerator // stamp.denominator
    digits = f"{int((stamp - whole) * 10**9):09}".rstrip("0")
    try:
        moment = datetime(1970, 1, 1, tzinfo=timezone.utc) + timedelta(seconds=whole)
        local = moment.astimezone(stamp.zone) if isinstance(stamp, Stamp) else moment
    except OverflowError as fault:
        raise Fault(NO_DATE) from fault
    # Before they had zones, clocks were ahead by some seconds too, which no stamp says.
    text = (local if local.utcoffset() % timedelta(minutes=1) == timedelta(0) else moment).isoformat()
    return text[:19] + (f".{digits}" if digits else "") + text[19:].replace("+00:00", "Z")


def clock_of(stamp: Fraction) -> tuple[str, str]:
    """The day, and what the clock on the wall shows."""
    day, rest = text_of(stamp).split("T")
    return day, re.split("[Z+-]", rest)[0]


def zone_name(zone: tzinfo) -> str:
    """What a zone is called: UTC, Europe/Berlin or +01:00.

        >>> zone_name(zone_of("UTC")), zone_name(zone_of("Europe/Berlin")), zone_name(zone_of("+0100"))
        ('UTC', 'Europe/Berlin', '+01:00')
    """
    offset = None if getattr(zone, "key", None) else zone.utcoffset(None)
    return str(zone) if offset is None else datetime.fromtimestamp(0, timezone(offset)).isoformat()[19:].replace("+00:00", "UTC")


def zero_file(sensor_file: Union[str, Path]) -> Path:
    """The file beside a sensor file that has its zero."""
    return Path(sensor_file).with_suffix(".zero")


def write_zero(sensor_file: Union[str, Path], zero: Optional[Fraction]) -> None:
    """Keeps the zero of a sensor file, or removes an older one if it isn't known now."""
    path = zero_file(sensor_file)
    try:
        if zero is None:
            path.unlink(missing_ok=True)
        else:
            path.write_text(text_of(zero) + "\n", encoding="ascii")
    except OSError as fault:
        raise Fault(f"cannot write {path}: {fault.strerror}") from fault


def read_zero(sensor_file: Union[str, Path]) -> Optional[Stamp]:
    """The zero of a sensor file, if it is kept beside it."""
    path = zero_file(sensor_file)
    try:
        return seconds(path.read_text(encoding="utf-8").strip())
    except FileNotFoundError:
        return None
    except (OSError, UnicodeDecodeError) as fault:
        raise Fault(f"cannot read {path}: {getattr(fault, 'strerror', None) or 'it is no text'}") from fault
    except Fault as fault:
        raise Fault(f"{path}: {fault}") from fault


def zero_of(graph: dict[str, Any], folder: Union[str, Path] = ".") -> Optional[Stamp]:
    """The zero that the sensor files of a graph share; nothing if none has one. Different ones raise a `Fault`."""
    files = [actor["file"] for actor in graph["actors"] if actor["kind"] == "sensor"]
    return shared_zero((str(zero_file(file)), read_zero(Path(folder, file))) for file in files)


def shared_zero(found: Iterable[tuple[str, Optional[Stamp]]]) -> Optional[Stamp]:
    """The one zero among those that were found, each with the name of what has it. Different ones raise a `Fault`."""
    names: dict[Stamp, str] = {}
    for name, zero in found:
        if zero is not None:
            names.setdefault(zero, name)
    if len(names) > 1:
        (one, first), (other, second) = list(names.items())[:2]
        raise Fault(f"{first} has the zero {text_of(one)}, and {second} has {text_of(other)}: make both sensor files with the same --zero")
    return next(iter(names), None)
