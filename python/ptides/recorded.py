"""Sensors out of recordings, by the companion `ptides rows`."""
from __future__ import annotations

import io
import os
import re
import tempfile
from pathlib import Path
from typing import TYPE_CHECKING, Any, Iterator, Optional, Union

from ptides import companions, frames
from ptides.program import Refused

if TYPE_CHECKING:
    import pandas

BOUND = re.compile(r"^this recording needs a bound of (\d+)$", re.MULTILINE)


class Recorded:
    """The rows of a sensor out of a recording, which `run` takes for the sensor.

    `text` is the sensor file, `bound` the bound that the recording needs, `zero` the wall time of its 0, if that is known, and `report`
    what `ptides rows` says.
    """

    def __init__(self, text: str, report: str, zero: Optional[str] = None):
        found = BOUND.search(report)
        self.text, self.report, self.zero, self.bound = text, report, zero, int(found[1]) if found else None

    @property
    def frame(self) -> pandas.DataFrame:
        """The rows as a DataFrame with the columns time, seen and value."""
        pandas = frames.pandas()

        return pandas.read_csv(io.StringIO(self.text), dtype="int64")

    def __repr__(self) -> str:
        return f"<ptides.Recorded: {self.text.count(chr(10)) - 1:,} rows, bound {self.bound}, zero {self.zero}>"


def words_of(options: dict[str, Any]) -> Iterator[str]:
    """Options as words: `True` has no value, `False` and `None` are left out, and `from_` is `from`, which Python has for itself."""
    for name, value in options.items():
        word = "--" + name.rstrip("_").replace("_", "-")
        for each in value if isinstance(value, (list, tuple)) else [value]:
            if each is True:
                yield word
            elif each is not None and each is not False:
                # A value that begins with `-` would be an option.
                yield f"{word}={each}"


def rows(kind: str, *files: Union[str, os.PathLike], **options: Any) -> Recorded:
    """The rows of a sensor out of a recording; the options are those of `ptides rows KIND`, as `period=20000` for `--period 20000`.

        >>> speed = rows("candump", "examples/canlog/drive.log", id="0A0", bytes="0:2", order="big", scale=2, period=20000, phase=0)
        >>> speed.bound
        823
    """
    with tempfile.TemporaryDirectory(prefix="ptides-") as work:
        target = Path(work, "sensor.csv")
        done = companions.call("rows", kind, *map(os.fspath, files), *words_of(options), "-o", target)
        if done.status:
            raise Refused(done)
        zero = target.with_suffix(".zero")
        return Recorded(target.read_text(), done.notes, zero.read_text().strip() if zero.exists() else None)
