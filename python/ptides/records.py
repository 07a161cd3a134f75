"""Lists of records, which pandas shows as frames if asked."""
from __future__ import annotations

from typing import TYPE_CHECKING, Any, Generic, Iterable, NamedTuple, Optional, TypeVar, get_type_hints

from ptides import frames
from ptides.times import stamp_of

if TYPE_CHECKING:
    import pandas

Record = TypeVar("Record", bound=tuple)
# What pandas calls a column of numbers, and one of numbers some of which are missing.
DTYPES = {int: "int64", Optional[int]: "Int64"}
# How many records a notebook shows.
SHOWN = 20


class Rows(list, Generic[Record]):
    """A list of named tuples of one kind; `frame` is the same as a pandas DataFrame.

    If `zero` is known, the frame has a column `stamp`, the wall time of `time`.
    """

    def __init__(self, kind: type, records: Iterable[Record] = (), zero: Any = None):
        super().__init__(records)
        self.kind, self.zero = kind, zero

    @property
    def frame(self) -> pandas.DataFrame:
        """The records as a DataFrame; its numbers are whole ones, also where some are missing."""
        return frame_of(self.kind, self, self.zero)

    def _repr_html_(self) -> str:
        """What a notebook shows: the first records, and how many there are."""
        more = f"<p>{len(self):,} in all</p>" if len(self) > SHOWN else ""
        return table_html(self.kind._fields, self[:SHOWN]) + more


def frame_of(kind: type, records: Iterable[tuple], zero: Any = None) -> pandas.DataFrame:
    """Records of one kind as a DataFrame."""
    pandas = frames.pandas()

    hints = get_type_hints(kind)
    columns = list(zip(*records)) or [()] * len(hints)
    frame = pandas.DataFrame({name: pandas.Series(list(column), dtype=DTYPES.get(hints[name], "object"))
                              for name, column in zip(hints, columns)})
    if zero is not None and "time" in hints:
        frame["stamp"] = stamps(frame["time"], zero)
    return frame


def stamps(times: Any, zero: Any) -> Any:
    """These microseconds as times of the wall clock, or without a zero as lengths of time."""
    pandas = frames.pandas()

    spans = pandas.to_timedelta(times, unit="us")
    return spans if zero is None else stamp_of(zero) + spans


def table_html(head: Iterable[str], records: Iterable[Iterable[Any]]) -> str:
    """A plain table of HTML."""
    from html import escape

    top = "".join(f"<th>{escape(name)}</th>" for name in head)
    body = "".join("<tr>" + "".join(f"<td>{'' if cell is None else escape(str(cell))}</td>" for cell in record) + "</tr>" for record in records)
    return f"<table><thead><tr>{top}</tr></thead><tbody>{body}</tbody></table>"


class Margin(NamedTuple):
    """How long an actor waits after the time of an event, and how much is then left; `None` is what doesn't exist."""

    actor: str
    offset: Optional[int]
    margin: Optional[int]


class Slack(NamedTuple):
    """The least slack of a sender or an actuator."""

    actor: str
    slack: int


class Event(NamedTuple):
    """A value at a tag, a time in microseconds and a step."""

    time: int
    step: int
    value: int


class Room(NamedTuple):
    """What was left until a deadline when an actuator or a sender acted; below 0 it was missed."""

    actor: str
    time: int
    step: int
    reading: int
    deadline: int
    room: int
