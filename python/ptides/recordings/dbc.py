"""Signals of a DBC file: where they are in frames, and which number they mean."""
from __future__ import annotations

import difflib
import re
import struct
from dataclasses import dataclass
from fractions import Fraction

from ptides import companion
from ptides.program import Fault
from ptides.ratios import Linear
from ptides.recordings.candump import Signal
from ptides.recordings.samples import Number

# More bytes than any network needs.
MOST = 1 << 26
MESSAGE = re.compile(r"^BO_ (\d+) (\w+) *: *(\d+)", re.MULTILINE)
FLOAT = r"[+-]?(?:\d+\.?\d*|\.\d+)(?:[eE][+-]?\d{1,3})?"
SIGNAL = re.compile(rf"^[ \t]+SG_ (\w+)[ \t]*(M|m\d+M?)?[ \t]*:[ \t]*(\d+)\|(\d+)@([01])([+-])[ \t]*\(({FLOAT}),({FLOAT})\)", re.MULTILINE)
FLOATING = re.compile(r"^SIG_VALTYPE_ (\d+) (\w+) *:? *([12]) *;", re.MULTILINE)
EXTENDED = 1 << 31


@dataclass
class Layout:
    """A signal of a message: its place as DBC writes it, its factor and offset, and the value of the multiplexer with which it is sent."""

    name: str
    start: int
    size: int
    little: bool
    signed: bool
    factor: Fraction
    offset: Fraction
    multiplexer: str
    floating: bool

    def needed(self) -> int:
        """How many bytes a frame with it has."""
        if self.little:
            return (self.start + self.size + 7) // 8
        return (self.first() + self.size + 7) // 8

    def first(self) -> int:
        """The place of its greatest bit, counted from the greatest bit of the first byte; of those with the greatest byte first."""
        return 8 * (self.start // 8) + 7 - self.start % 8

    def number(self, data: bytes) -> Number:
        """The number that is written in the bits."""
        if self.little:
            bits = int.from_bytes(data, "little") >> self.start
        else:
            bits = int.from_bytes(data, "big") >> (8 * len(data) - self.first() - self.size)
        bits &= (1 << self.size) - 1
        if self.floating:
            value = struct.unpack("<f" if self.size == 32 else "<d", bits.to_bytes(self.size // 8, "little"))[0]
            return Fraction(value)
        return bits - (1 << self.size) if self.signed and bits >> (self.size - 1) else bits


class Database:
    """The messages of a DBC file."""

    def __init__(self, path: str):
        self.path = path
        text = companion.read(path, MOST).decode("cp1252", errors="replace")
        self.floating = {(number, name) for number, name, _ in FLOATING.findall(text)}
        self.messages: dict[str, tuple[str, list[Layout]]] = {}
        parts = MESSAGE.split(text)
        for number, name, _, body in zip(parts[1::4], parts[2::4], parts[3::4], parts[4::4]):
            self.messages[name] = (number, [self.layout(number, found) for found in SIGNAL.finditer(body)])
        if not self.messages:
            raise Fault(f"{path}: no message (BO_) is in it: is it a DBC file?")

    def layout(self, number: str, found: "re.Match[str]") -> Layout:
        """The layout that a line SG_ states."""
        name, multiplexer, start, size, order, sign, factor, offset = found.groups()
        return Layout(name, int(start), int(size), order == "1", sign == "-", Fraction(factor), Fraction(offset), multiplexer or "",
                      (number, name) in self.floating)

    def found(self, wanted: str) -> tuple[str, Layout]:
        """The message and the layout of a signal, which is named alone or as MESSAGE.SIGNAL."""
        all_signals = {f"{message}.{layout.name}": (message, layout) for message, (_, layouts) in self.messages.items() for layout in layouts}
        names = [name for name in all_signals if wanted in (name, name.split(".")[1])]
        if len(names) == 1:
            return all_signals[names[0]]
        if names:
            raise Fault(f"{self.path}: several messages have a signal {wanted}: {', '.join(names)}")
        close = difflib.get_close_matches(wanted, [name.split(".")[1] for name in all_signals] + list(all_signals), 1)
        raise Fault(f"{self.path}: no signal {wanted}" + (f"; did you mean {close[0]}?" if close else ""))

    def signal(self, wanted: str, scale: Number, raw: bool) -> Signal:
        """A signal of frames: the number is factor times the bits and the offset, times the scale; or the bits alone."""
        message, layout = self.found(wanted)
        number, layouts = self.messages[message]
        identifier = int(number)
        text = f"{identifier - EXTENDED:08X}" if identifier >= EXTENDED else f"{identifier:03X}"
        which = re.fullmatch(r"m(\d+)", layout.multiplexer)
        selector = next((each for each in layouts if each.multiplexer == "M"), None) if which else None
        if layout.multiplexer and layout.multiplexer != "M" and selector is None:
            raise Fault(f"{self.path}: the signal {wanted} is multiplexed by more than one other, which isn't read")
        if layout.floating and layout.size not in (32, 64):
            raise Fault(f"{self.path}: the signal {wanted} is a float of {layout.size} bits, which isn't read")

        def needs(data: bytes) -> int:
            if selector and len(data) < selector.needed():
                return selector.needed()
            return layout.needed() if selector is None or selector.number(data) == int(which[1]) else 0

        linear = Linear(scale, 0) if raw else Linear(layout.factor * scale, layout.offset * scale)
        return Signal(wanted.split(".")[-1], text, needs, lambda data: linear.of(layout.number(data)))
