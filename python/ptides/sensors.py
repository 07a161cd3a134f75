"""Makes sensor files of what a program has: a Series, a DataFrame, what `rows` took out of a recording, or the path of a file.

A Series has the values by time. A DataFrame has a column `value`, or one column alone, and may have `seen`, when each was seen; its
times are its index, or a column `time`.
"""
from __future__ import annotations

import os
from fractions import Fraction
from pathlib import Path
from typing import Any, Mapping, Optional

from ptides import frames, wall_time
from ptides.files import readable
from ptides.program import Fault
from ptides.recorded import Recorded
from ptides.times import numbers_of, second_before, stamp_of


def is_file(data: Any) -> bool:
    """Whether a sensor is the path of a file, or has its text."""
    return isinstance(data, (str, os.PathLike, Recorded))


def name_of(data: Any) -> str:
    """What the user calls data: its path, or its type."""
    return os.fspath(data) if isinstance(data, (str, os.PathLike)) else type(data).__name__


def parts_of(name: str, data: Any) -> dict[str, Any]:
    """The times, the values and, if there are any, the readings at which they were seen."""
    pandas = frames.pandas()

    if isinstance(data, pandas.Series):
        return {"time": data.index, "value": data}
    if not isinstance(data, pandas.DataFrame):
        raise Fault(f"sensor {name}: {type(data).__name__} is no path, Series or DataFrame")
    others = [column for column in data.columns if column not in ("time", "seen")]
    values = "value" if "value" in others else others[0] if len(others) == 1 else None
    if values is None:
        raise Fault(f"sensor {name}: no column `value`, but {', '.join(map(str, others)) or 'none'}")
    parts = {"time": data["time"] if "time" in data else data.index, "value": data[values]}
    return {**parts, "seen": data["seen"]} if "seen" in data else parts


def stamps_of(sensors: Mapping[str, Any]) -> list[Any]:
    """The first wall time of each sensor that has such times."""
    if all(map(is_file, sensors.values())):
        return []
    pandas = frames.pandas()

    indexes = [pandas.Index(parts_of(name, data)["time"]) for name, data in sensors.items() if not is_file(data)]
    return [index.min() for index in indexes if isinstance(index, pandas.DatetimeIndex) and len(index)]


def recorded_zero(graph: Mapping[str, Any], home: Path, given: Mapping[str, Any]) -> Optional[Fraction]:
    """The zero that is kept beside the sensor files, or came with a recording; nothing if none has one."""
    actors = [actor for actor in graph["actors"] if actor["kind"] == "sensor"]
    return wall_time.shared_zero((actor["name"], zero_with(given.get(actor["name"], home / actor["file"]))) for actor in actors)


def zero_with(data: Any) -> Optional[Fraction]:
    """The zero that came with the data of a sensor; nothing if none did."""
    if isinstance(data, Recorded):
        return wall_time.seconds(data.zero) if data.zero else None
    return wall_time.read_zero(data) if is_file(data) else None


def common_zero(sensors: Mapping[str, Any], zero: Any, recorded: Optional[Fraction]) -> Any:
    """The zero of all sensors: the one that is stated, else the recorded one, else the whole second before the first wall time."""
    try:
        stamps = stamps_of(sensors)
        if zero is not None or stamps and recorded is not None:
            return agreed(zero, recorded, stamps)
        return second_before(stamps) if recorded is None else recorded
    except TypeError as fault:
        raise Fault("of the sensors' stamps some have a time zone and some have none") from fault


def agreed(zero: Any, recorded: Optional[Fraction], stamps: list[Any]) -> Any:
    """The zero that is stated, if it is the recorded one; else the recorded one, in the zone of the stamps."""
    known = None if recorded is None else stamp_of(recorded)
    if zero is None:
        return known.tz_convert(stamps[0].tz) if stamps[0].tz else known
    stated = stamp_of(zero)
    if known is not None and (stated.tz is None or stated != known):
        raise Fault(f"the zero is stated as {stated}, and the sensor files have {known}")
    return stated


def whole(name: str, values: Any) -> Any:
    """The values as whole numbers."""
    pandas = frames.pandas()

    if values.isna().any():
        raise Fault(f"sensor {name}: {int(values.isna().sum())} values are missing: dropna() leaves them out")
    if pandas.api.types.is_float_dtype(values):
        broken = values[values % 1 != 0]
        if len(broken):
            raise Fault(f"sensor {name}: {broken.iloc[0]} is no whole number: scale the values, as (values * 10).round()")
        if (values.abs() >= 2**63).any():
            raise Fault(f"sensor {name}: a value doesn't fit 64 bits")
    elif not (pandas.api.types.is_integer_dtype(values) or pandas.api.types.is_bool_dtype(values)):
        raise Fault(f"sensor {name}: values are whole numbers, and not {values.dtype}")
    return values.astype("int64") if values.dtype != "uint64" else values


def write(name: str, data: Any, path: Path, zero: Optional[Any]) -> None:
    """Writes the file of a sensor; a path becomes a link to its file."""
    if isinstance(data, Recorded):
        path.write_text(data.text)
        return
    if is_file(data):
        path.symlink_to(readable(data, f"sensor {name}"))
        return
    pandas = frames.pandas()

    parts = parts_of(name, data)
    times = numbers_of(parts["time"], zero, f"sensor {name}")
    seen = numbers_of(parts["seen"], zero, f"sensor {name}, seen") if "seen" in parts else times
    frame = pandas.DataFrame({"time": times, "seen": seen, "value": whole(name, parts["value"]).to_numpy()})
    frame.to_csv(path, index=False)
