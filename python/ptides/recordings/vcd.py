"""Value change dumps of simulators, logic analysers and `ptides wave`."""
from __future__ import annotations

import re
from fractions import Fraction
from math import floor
from typing import Iterator, NamedTuple, Optional

from ptides.program import Fault
from ptides.recordings.samples import UNITS, Asked, Number, Sample, fault_at, lines_of



class Variable(NamedTuple):
    """A declared signal of a VCD file."""

    path: str
    kind: str
    size: int
    code: str


def tokens_of(path: str) -> Iterator[tuple[int, str]]:
    for line, text in lines_of(path):
        for token in text.split():
            yield line, token


def words_to_end(tokens: Iterator[tuple[int, str]]) -> list[str]:
    found = []
    for _, token in tokens:
        if token == "$end":
            break
        found.append(token)
    return found


def vcd_header(asked: Asked, tokens: Iterator[tuple[int, str]]) -> tuple[Fraction, list[Variable]]:
    """Reads the declarations: how many microseconds a unit of time is, and the signals."""
    unit, scopes, variables = None, [], []
    for line, token in tokens:
        words = words_to_end(tokens)
        if token == "$timescale":
            scale = re.fullmatch(r"(1|10|100)(s|ms|us|ns|ps|fs)", "".join(words))
            if not scale:
                raise fault_at(asked, line, "no timescale that VCD knows")
            unit = int(scale[1]) * UNITS[scale[2]]
        elif token == "$scope" and len(words) == 2:
            scopes.append(words[1])
        elif token == "$upscope" and scopes:
            scopes.pop()
        elif token == "$var" and len(words) >= 4 and words[1].isdigit():
            variables.append(Variable(".".join([*scopes, words[3]]), words[0], int(words[1]), words[2]))
        elif token == "$enddefinitions":
            break
        elif token not in ("$comment", "$date", "$version"):
            raise fault_at(asked, line, "not the head of a VCD file")
    if unit is None:
        raise Fault(f"{asked.recording}: not a VCD file with a timescale")
    return unit, variables


def chosen(asked: Asked, variables: list[Variable]) -> Variable:
    """The signal whose path is the asked one, or ends with it."""
    exact = [variable for variable in variables if variable.path == asked.signal]
    found = exact or [variable for variable in variables if variable.path.endswith("." + asked.signal)]
    if len({variable.code for variable in found}) == 1:
        return found[0]
    listed = ", ".join(variable.path for variable in (found or variables)[:12])
    raise Fault(f"{asked.recording}: {'several signals are' if found else 'no signal is'} called {asked.signal}: {listed}")


def vcd_number(asked: Asked, line: int, text: str, variable: Variable) -> Optional[Number]:
    """The number that a change gives, or None if it is unknown."""
    if text[0] in "rR":
        try:
            return Fraction(text[1:])
        except ValueError:
            raise fault_at(asked, line, f"{text[1:]} is no number")
    digits = text[1:] if text[0] in "bB" else text
    if re.search("[xXzZ]", digits):
        return None
    if not re.fullmatch("[01]+", digits):
        raise fault_at(asked, line, f"{text} is no value")
    number = int(digits, 2)
    signed = asked.signed or variable.kind == "integer"
    return number - (1 << variable.size) if signed and number >> (variable.size - 1) == 1 else number


def vcd_samples(asked: Asked) -> Iterator[Sample]:
    """Each change that the file has of the signal; unknown values are passed over."""
    tokens = tokens_of(asked.recording)
    unit, variables = vcd_header(asked, tokens)
    variable, now = chosen(asked, variables), 0
    zero = asked.zero or 0
    for line, token in tokens:
        if token[0] == "#" and token[1:].isdigit():
            now = int(token[1:])
        elif token == "$comment":
            words_to_end(tokens)
        elif token[0] == "$":
            continue
        else:
            vector = token[0] in "bBrRsS"
            value, code = (token, next(tokens, (0, ""))[1]) if vector else (token[0], token[1:])
            if code != variable.code:
                continue
            number = vcd_number(asked, line, value, variable)
            if number is None:
                asked.passed["unknown values"] += 1
            else:
                yield Sample(line, floor(now * unit - zero), number)
