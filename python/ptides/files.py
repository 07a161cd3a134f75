"""Sensor files and air files as the program has read them, and files for what there is only in memory."""
from __future__ import annotations

import csv
import errno
import os
import tempfile
from contextlib import contextmanager
from pathlib import Path
from typing import Any, Iterator, Union

from ptides.program import Fault

AIR = ["what", "name", "value"]


def readable(path: Union[str, os.PathLike], what: str = "") -> str:
    """The whole path of a file that can be read; `what` is what the user gave it for."""
    path = os.fspath(path)
    wrong = errno.ENOENT if not os.path.exists(path) else errno.EISDIR if os.path.isdir(path) else 0 if os.access(path, os.R_OK) else errno.EACCES
    if wrong:
        raise Fault(f"{what}{': ' if what else ''}cannot read {path}: {os.strerror(wrong)}")
    return os.path.abspath(path)


@contextmanager
def kept(text: Union[str, os.PathLike], what: str = "file") -> Iterator[str]:
    """The path of a file with this text, which is removed afterwards; or the path itself, if it is one. `what` is what it is for."""
    if isinstance(text, os.PathLike):
        yield readable(text, what)
        return
    with tempfile.TemporaryDirectory(prefix="ptides-") as work:
        file = Path(work, "text")
        file.write_bytes(text.encode("utf-8", "surrogateescape"))
        yield str(file)


@contextmanager
def air_file(air: Any) -> Iterator[str]:
    """The path of the recording of a network: a path, or a DataFrame with the columns of an air file."""
    try:
        source = Path(air) if isinstance(air, (str, os.PathLike)) else air[AIR].to_csv(index=False)
    except (TypeError, KeyError, IndexError, AttributeError) as fault:
        raise Fault(f"air: {type(air).__name__} is no path, and no DataFrame with the columns {', '.join(AIR)}") from fault
    with kept(source, "air") as path:
        yield path


def records_of(path: Union[str, os.PathLike]) -> list[list[str]]:
    """The records of a sensor file or an air file that the program has taken, without the header. A blank line is none."""
    try:
        with open(path, encoding="utf-8-sig", errors="replace", newline="") as file:
            return [record for record in csv.reader(file) if record][1:]
    except OSError as fault:
        raise Fault(f"cannot read {path}: {fault.strerror}") from fault
    except csv.Error as fault:
        raise Fault(f"cannot read {path}: {fault}") from fault
