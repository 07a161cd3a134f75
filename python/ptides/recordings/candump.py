"""Logs of candump, and values in the bytes of frames."""
from __future__ import annotations

import re
from dataclasses import dataclass
from typing import Callable, Iterable, Iterator, NamedTuple, Optional, Union

from ptides.program import Fault
from ptides.ratios import Ratio
from ptides.recordings.samples import Asked, Number, Sample, fault_at, lines_of

FRAME = re.compile(r"\((\d+)\.(\d{6,9})\) (\S+) ([0-9A-Fa-f]{3}|[0-9A-Fa-f]{8})#(#[0-9A-Fa-f])?(R[0-9A-Fa-f]{0,2}|(?:[0-9A-Fa-f]{2})*)(?:_[0-9A-Fa-f])?(?: [RT])?\s*")


def identifier_of(text: str) -> str:
    """The identifier as a log spells it: 3 digits, or 8 if it is an extended one."""
    digits = text.upper()[2:] if text[:2] in ("0x", "0X") else text.upper()
    if not re.fullmatch("[0-9A-F]{1,8}", digits):
        raise Fault(f"--id {text} is not an identifier in hexadecimal digits")
    return digits.zfill(3 if len(digits) <= 3 else 8)


def number_of_bytes(asked: Asked, data: bytes) -> int:
    """The number that the asked bytes, or bits of them, hold."""
    first, count = asked.bytes
    found = data[first : first + count]
    number, width = int.from_bytes(found, "little") if asked.order == "little" else int.from_bytes(found, "big"), 8 * count
    if asked.bits:
        number, width = (number >> asked.bits[0]) & ((1 << asked.bits[1]) - 1), asked.bits[1]
    return number - (1 << width) if asked.signed and number >> width - 1 else number


class Frame(NamedTuple):
    """A frame of a candump log: its line, its stamp in nanoseconds, where it was seen, its identifier, and its data in hexadecimal."""

    line: int
    stamp: int
    bus: str
    identifier: str
    data: str


def frames_of(path: str) -> Iterator[Frame]:
    """All frames of a candump log, remote requests too; the data of those begins with R."""
    for line, text in lines_of(path):
        frame = FRAME.fullmatch(text)
        if not frame:
            raise Fault(f"{path}:{line}: not a line of a candump log (candump -l or candump -L)")
        seconds, digits, bus, identifier, _, data = frame.groups()
        yield Frame(line, int(seconds + digits.ljust(9, "0")), bus, identifier.upper(), data.upper())


def text_of(frame: Frame) -> str:
    """The frame as candump logs it."""
    digits = f"{frame.stamp % 10**9:09}".removesuffix("000")
    return f"({frame.stamp // 10**9}.{digits}) {frame.bus} {frame.identifier}#{frame.data}"


def no_frame(path: str, wanted: str, others: Iterable[str]) -> Fault:
    """There is no frame of an identifier."""
    return Fault(f"{path}: no frame of {wanted}; the identifiers in it are {', '.join(sorted(others)) or 'none'}")


@dataclass
class Signal:
    """A signal in frames: their identifier, how many bytes a frame of this data needs to have, and the number in it.

    A frame that needs none doesn't carry the signal.
    """

    name: str
    identifier: str
    needs: Callable[[bytes], int]
    number: Callable[[bytes], Union[Number, Ratio]]


def asked_signal(asked: Asked) -> Signal:
    """The signal in the bytes that the words state."""
    if not asked.id or not asked.bytes:
        raise Fault("--id and --bytes state where the signal is" + (", or --dbc and --signals" if asked.kind == "can" else ""))
    if asked.bytes[1] > 1 and asked.order is None:
        raise Fault("several bytes need --order big or --order little")
    if asked.bits and sum(asked.bits) > 8 * asked.bytes[1]:
        raise Fault("--bits are more than the bytes have")
    return Signal("", identifier_of(asked.id), lambda _: sum(asked.bytes), lambda data: number_of_bytes(asked, data))


def candump_samples(asked: Asked) -> Iterator[Sample]:
    """The samples of the signal that the words state."""
    for _, sample in signal_samples(asked, frames_of(asked.recording), [asked_signal(asked)]):
        yield sample


def signal_samples(asked: Asked, frames: Iterable[Frame], signals: list[Signal]) -> Iterator[tuple[Signal, Sample]]:
    """The samples of several signals in one pass. Remote requests carry no value and are passed over."""
    wanted: dict[str, list[Signal]] = {}
    others: set[str] = set()
    zero: Optional[int] = None
    for signal in signals:
        wanted.setdefault(signal.identifier, []).append(signal)
    for frame in frames:
        if asked.zero is None:
            asked.zero = frame.stamp // 10**9
        if zero is None:
            zero = int(asked.zero * 10**9)
        others.add(frame.identifier)
        if frame.identifier not in wanted or asked.bus not in (None, frame.bus):
            continue
        if frame.data.startswith("R"):
            asked.passed["remote requests"] += 1
            continue
        data = bytes.fromhex(frame.data)
        for signal in wanted[frame.identifier]:
            number = number_of(asked, signal, frame, data)
            if number is not None:
                yield signal, Sample(frame.line, (frame.stamp - zero) // 1000, number)
    missing = next((identifier for identifier in wanted if identifier not in others), None)
    if missing:
        raise no_frame(asked.recording, missing, others)


def number_of(asked: Asked, signal: Signal, frame: Frame, data: bytes) -> Union[Number, Ratio, None]:
    """The number of a signal in a frame."""
    needed = signal.needs(data)
    if len(data) < needed:
        by = f"the signal {signal.name}" if signal.name else "--bytes"
        raise fault_at(asked, frame.line, f"the frame has {len(data)} bytes, and {by} needs {needed}")
    return signal.number(data) if needed else None
