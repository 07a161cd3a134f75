"""The clock on the wall during a run: what it shows at each time.

    >>> from datetime import timezone
    >>> zero = Zero(1774745880000000, timezone.utc, "2026-03-29T00:58:00Z")
    >>> zero.text_of(1_500_000)
    '2026-03-29 00:58:01.500000'
"""
from __future__ import annotations

from datetime import datetime, timedelta, timezone, tzinfo
from typing import Any, NamedTuple, Optional

from ptides import wall_time
from ptides.program import Fault
from ptides.times import stamp_of

START, MICROSECOND = datetime(1970, 1, 1, tzinfo=timezone.utc), timedelta(microseconds=1)
DAY = 86_400 * 10**6
# Of a longer run only the offset at its start is looked up.
MOST_DAYS = 4000


class Zero(NamedTuple):
    """The wall time at 0: the microseconds since the start of 1970 in UTC, the zone of the clock on the wall, and the stamp.

    Without a zone the clock shows what the stamp says, whatever its zone.
    """

    utc: int
    zone: Optional[tzinfo]
    text: str

    def offset(self, time: int) -> int:
        """How far the clock on the wall is ahead of UTC, in microseconds."""
        if self.zone is None:
            return 0
        try:
            return self.utc_at(time).astimezone(self.zone).utcoffset() // MICROSECOND
        except OverflowError as fault:
            raise self.beyond() from fault

    def utc_at(self, time: int) -> datetime:
        """The time in UTC."""
        try:
            return START + timedelta(microseconds=self.utc + time)
        except OverflowError as fault:
            raise self.beyond() from fault

    def beyond(self) -> Fault:
        """The fault that a time has no date."""
        return Fault(f"with the zero {self.text} {wall_time.NO_DATE}")

    def offsets(self, first: int, last: int) -> list[list[int]]:
        """From which time on which offset holds, between these times: a clock may be put forward or back."""
        found = [[first, self.offset(first)]]
        days = range(first, last, DAY) if last - first < MOST_DAYS * DAY else range(0)
        for start in days:
            end = min(start + DAY, last)
            if self.offset(end) != found[-1][1]:
                found.append([self.change(start, end), self.offset(end)])
        return found

    def change(self, start: int, end: int) -> int:
        """When the offset changes between two times that have different ones."""
        while end - start > 1:
            middle = (start + end) // 2
            start, end = (middle, end) if self.offset(middle) == self.offset(start) else (start, middle)
        return end

    def text_of(self, time: int) -> str:
        """What the clock on the wall shows."""
        shown = self.utc_at(time + self.offset(time))
        return shown.strftime("%Y-%m-%d %H:%M:%S") + f".{shown.microsecond:06d}"


def zero_of(stamp: wall_time.Stamp, zone: Optional[tzinfo]) -> Zero:
    """The zero that is a stamp; the clock on the wall is of the zone, or else of that of the stamp."""
    return Zero(int(stamp * 10**6 // 1), zone or stamp.zone, wall_time.text_of(stamp))


def zero_as_shown(zero: Any) -> Optional[Zero]:
    """The zero that a program stated or that its data has, or the stamp that a file has."""
    if zero is None:
        return None
    if isinstance(zero, wall_time.Stamp):
        return zero_of(zero, None)
    stamp = stamp_of(zero)
    return Zero(stamp.value // 1000, stamp.tz, stamp.isoformat())
