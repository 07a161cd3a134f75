"""Files of CAN frames that python-can reads (BLF, ASC, TRC, its CSV), and logs of candump; several signals of a DBC file in one pass."""
from __future__ import annotations

import logging
from pathlib import Path
from typing import Any, Iterator

from ptides import companion
from ptides.program import Fault
from ptides.recordings import candump
from ptides.recordings.candump import Frame, Signal, signal_samples
from ptides.recordings.dbc import Database
from ptides.recordings.samples import Asked, Sample

# What the companion reads itself, with lines and nanoseconds.
OWN = (".log",)


class Complaints(logging.Handler):
    """What the readers write to their log and then pass over: here it is a fault, so that no frame is lost."""

    def __init__(self) -> None:
        super().__init__(logging.WARNING)
        self.first = ""

    def emit(self, record: logging.LogRecord) -> None:
        """Keeps the first."""
        self.first = self.first or record.getMessage()

    def check(self, path: str, number: int) -> None:
        """Refuses a file of which the reader has complained."""
        if self.first:
            raise Fault(f"cannot read {path}: after frame {number}: {self.first}".split("\n")[0])


def frames_of(path: str) -> Iterator[Frame]:
    """All frames of a file; its ending says of which kind it is. Their stamps are to the microsecond, as python-can has floats."""
    if Path(path).suffix.lower() in OWN:
        yield from candump.frames_of(path)
        return
    can = companion.needed("can", "python3-can", f"{Path(path).suffix or path}")
    number, complaints = 0, Complaints()
    logger = logging.getLogger("can")
    logger.addHandler(complaints)
    logger.propagate = False
    try:
        with can.LogReader(path) as reader:
            for message in reader:
                number += 1
                if not message.is_error_frame:
                    yield frame_of(number, message)
                complaints.check(path, number)
        complaints.check(path, number)
    except Fault:
        raise
    except OSError as fault:
        raise Fault(f"cannot read {path}: {fault.strerror or fault}") from fault
    except Exception as fault:
        # The readers raise whatever comes up in a file that isn't of its kind.
        after = f"after frame {number}: " if number else ""
        raise Fault(f"cannot read {path}: {after}{fault or type(fault).__name__}".split("\n")[0]) from fault


def frame_of(number: int, message: Any) -> Frame:
    """A message of python-can as a frame."""
    identifier = f"{message.arbitration_id:0{8 if message.is_extended_id else 3}X}"
    bus = "any" if message.channel is None else str(message.channel)
    return Frame(number, 1000 * round(message.timestamp * 1e6), bus, identifier, "R" if message.is_remote_frame else message.data.hex().upper())


def signals_of(asked: Asked) -> list[Signal]:
    """The signals that the words ask for, by the DBC file or by their place."""
    if asked.dbc is None:
        return [candump.asked_signal(asked)]
    database = Database(asked.dbc)
    found = [database.signal(name, scale, asked.raw) for name, scale in asked.signals]
    names = [signal.name for signal in found]
    twice = next((name for name in names if names.count(name) > 1), None)
    if twice:
        raise Fault(f"--signals names {twice} twice")
    return found


def samples_of(asked: Asked) -> dict[str, list[Sample]]:
    """The samples of each signal, in one pass."""
    signals = signals_of(asked)
    found: dict[str, list[Sample]] = {signal.name: [] for signal in signals}
    for signal, sample in signal_samples(asked, frames_of(asked.recording), signals):
        found[signal.name].append(sample)
    return found
