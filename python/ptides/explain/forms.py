"""What the parts of a graph have to be."""
from __future__ import annotations

import re
from dataclasses import dataclass
from decimal import Decimal

from ptides.explain.findings import shown
from ptides.explain.json_text import Node

PARTS = {"platform": "platforms", "actor": "actors", "wire": "wires", "link": "links", "clock error": "clock_errors"}
# The limits of the arrays in versions 1 and 2.
LIMITS = {"platforms": (16, 16), "actors": (256, 1024), "wires": (1024, 4096), "links": (64, 64), "clock errors": (120, 120),
          "rows": (64, 64), "cells": (1024, 1024)}
VERSION_2 = 'write "ptides":2, and add "clock_errors":[]'

@dataclass(frozen=True)
class Form:
    """What a value has to be: its JSON kind, that in words, the range of a number, and what a name is the name of."""
    kind: str
    says: str
    low: int = -(2**63)
    high: int = 2**63 - 1
    pool: str = ""


WHOLE, NAME = "a whole number", "a name: 1 to 32 letters of ASCII, digits and `_`, a letter first"
TIMES, VALUES = Form(WHOLE, "a time in whole microseconds, 0 to 10^15", 0, 10**15), Form(WHOLE, "a whole number of 64 bits with a sign")
NAMES, ACTOR_NAME, PLATFORM, BLOCK = (Form("a text", NAME, pool=pool) for pool in ("name", "actor", "platform", "block"))
FILES = Form("a text", "a file name: 1 to 120 letters of ASCII, digits, `_`, `-`, `.` and `/`", pool="file")
PORTS, LIST = Form(WHOLE, "the number of a port, 0 to 7", 0, 7), Form("an array", "an array")
EMIT = Form("`null` or an array of two whole numbers", "`null`, or an output and a value")


def from_to(low: int, high: int, says: str = "") -> Form:
    """A whole number of that range."""
    return Form(WHOLE, f"a whole number from {says or f'{low} to {high}'}", low, high)


KINDS: dict[str, dict[str, Form]] = {
    "sensor": {"file": FILES, "bound": TIMES}, "receive": {}, "send": {"slack": TIMES}, "actuator": {"slack": TIMES},
    "scale": {"num": from_to(-10**9, 10**9, "-10^9 to 10^9"), "den": from_to(1, 10**9, "1 to 10^9")}, "shift": {"by": VALUES},
    "add": {}, "sub": {}, "above": {"limit": VALUES}, "merge": {"n": from_to(2, 8)}, "delay": {"d": TIMES}, "count": {}, "sum": {},
    "latch": {}, "machine": {"start": VALUES, "outputs": from_to(1, 8), "rows": LIST},
    "every": {"start": TIMES, "period": from_to(1, 10**15, "1 to 10^15")}, "block": {"block": BLOCK}, "lanes": {"cells": LIST}}
ACTOR = {"name": NAMES, "platform": PLATFORM, "kind": Form("a text", "a kind")}
ROW = {"state": VALUES, "low": VALUES, "high": VALUES, "next": VALUES, "emit": EMIT}
TOP = {"ptides": from_to(1, 2), "until": TIMES, "clock_error": TIMES, "platforms": LIST, "actors": LIST, "wires": LIST, "links": LIST}
# The members of an object, or the entries of an array.
Shape = dict[str, Form]
SHAPES: dict[str, Shape] = {
    "wire": {"first actor": ACTOR_NAME, "output": PORTS, "second actor": ACTOR_NAME, "input": PORTS},
    "link": {"from": ACTOR_NAME, "to": ACTOR_NAME, "delay": TIMES},
    "clock error": {"first platform": PLATFORM, "second platform": PLATFORM, "clock error": TIMES}}
Leaf = tuple[str, Node, Form]


def leaves_of(shape: Shape, node: Node, of: str = "") -> list[Leaf]:
    """The values of an object or array of that shape, with what they are called and have to be."""
    if node.kind == "an array":
        return [(f"the {name}", item, form) for item, (name, form) in zip(node.items(), shape.items())]
    return [(f"`{key}`{of}", node.get(key), form) for key, form in shape.items()]


def better_number(node: Node, form: Form) -> str:
    """How to write what was probably meant as a whole number."""
    written = node.value if node.kind in ("a number", "a text") else ""
    found = re.fullmatch(r"\s*([+-]?[0-9]+(?:\.[0-9]+)?(?:[eE][+-]?[0-9]{1,3})?)\s*(ns|us|µs|ms|s|min)?\s*", written)
    if found:
        unit = {"ns": Decimal("0.001"), "ms": Decimal(10**3), "s": Decimal(10**6), "min": Decimal(6 * 10**7)}.get(found[2], Decimal(1))
        number = Decimal(found[1]) * unit
        if abs(number) >= 2**63:
            return f"64 bits with a sign hold at most {2**63 - 1}"
        if number == number.to_integral_value():
            return f"write {int(number)}" + (" without quotes" if node.kind == "a text" else "")
    return "times are whole microseconds: 1.5 ms is 1500" if form is TIMES else "values are whole numbers: choose a smaller unit, as tenths"


def wrong_name(node: Node, form: Form) -> str:
    """What is wrong with a name, or nothing."""
    most, signs, what = (120, r"[A-Za-z0-9_./-]", "a file name") if form is FILES else (32, r"[A-Za-z0-9_]", "a name")
    wrong = next((sign for sign in node.text() if not re.fullmatch(signs, sign)), "")
    if wrong or not node.text():
        return f"{what} can't have {'a space' if wrong == ' ' else f'`{shown(wrong)}`'}" if wrong else "this name is empty"
    if form is not FILES and not re.match("[A-Za-z]", node.text()):
        return f"a name can't begin with `{node.text()[0]}`"
    return f"{len(node.text())} letters, and at most {most} are allowed" if len(node.text()) > most else ""
