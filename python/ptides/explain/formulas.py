"""What a refused formula should have been, and what to write instead."""
from __future__ import annotations

import re
from typing import Sequence

from ptides.explain.findings import count, near, shown
from ptides.formulas.file import Refusal
from ptides.formulas.parser import MOST_STEPS
from ptides.formulas.words import FUNCTIONS, MOST_NUMBER

NAME = "a name: 1 to 32 letters of ASCII, digits and `_`, a letter first"
VALUE = "`a`, `b`, a number, `-`, `(` or a function"
CALLS = {"not": "not(x)", "abs": "abs(x)", "min": "min(x, y)", "max": "max(x, y)", "clamp": "clamp(x, low, high)", "scale": "scale(x, n, d)",
         "if": "if(condition, x, y)"}
WORDS = ["a", "b", "and", "or", *FUNCTIONS]
# What is meant by the words of other languages.
MEANT = {"x": "a", "y": "b", "input": "a", "state": "b", "A": "a", "B": "b", "true": "1", "false": "0", "TRUE": "1", "FALSE": "0", "True": "1", "False": "0",
         "mod": "%", "MOD": "%", "div": "/", "xor": "!=", "minimum": "min", "maximum": "max", "clip": "clamp", "limit": "clamp", "absolute": "abs",
         "then": "if(condition, x, y)", "else": "if(condition, x, y)", "ite": "if(condition, x, y)", "iif": "if(condition, x, y)"}
# What is meant by the signs of other languages.
SIGNS = {"&": "write `and`", "|": "write `or`", "^": "there is no power: write `a * a`", "?": "write `if(condition, x, y)`", ":": "write `if(condition, x, y)`",
         ";": "each formula has a line of its own, which ends without `;`", "[": "write `(`", "]": "write `)`", "{": "write `(`", "}": "write `)`",
         "~": "write `not(x)`", '"': "formulas have no texts", "'": "formulas have no texts", ".": "numbers are whole: choose a smaller unit, as thousandths",
         "_": "a word begins with a letter", "×": "write `*`", "·": "write `*`", "÷": "write `/`", "−": "write `-`", "–": "write `-`", "≤": "write `<=`",
         "≥": "write `>=`", "≠": "write `!=`", "²": "there is no power: write `a * a`", "\x00": "is the file UTF-16? Save it as UTF-8"}
# How files begin that have a byte order mark or are UTF-16, as bytes.
UNREADABLE = ("\xef\xbb\xbf", "\xff\xfe", "\xfe\xff", "\x00")
# What no formula has, and what does it instead.
LACKING = {"sqrt": "a table of straight lines", "sin": "a table of straight lines", "cos": "a table of straight lines", "exp": "a table of straight lines",
           "log": "a table of straight lines", "pow": "a * a", "round": "(a + 5) / 10 for tens", "floor": "`/` cuts toward zero", "int": "all values are whole",
           "sum": "an actor of kind `sum`", "mean": "(a + b) / 2", "avg": "(a + b) / 2", "previous": "a `delay` and a `latch`", "time": "times are no values: an `every` samples"}


def expected_of(what: str) -> str:
    """What should be at the place."""
    if " takes " in what:
        return CALLS[what.split(" ")[0]]
    return {"no name": NAME, "no =": "`=`, and then the formula", "unknown character": f"a word of formulas: {', '.join(WORDS)}, a number, or a sign",
            "half a sign": "`==` or `!=`", "number too large": f"a number of at most {MOST_NUMBER}", "unknown word": f"one of {', '.join(WORDS)}",
            "no value": VALUE, "no (": "`(`, and the values of the function", "no sign": "a sign, as `+`, or `)`, `,` or the end of the line",
            "tests in a row": "one test, or several with `and` between them", ") without (": "a `(` for each `)`", "( without )": "a `)` for each `(`",
            ", outside a call": "`,` only between the values of a function", f"more than {MOST_STEPS} steps":
            f"at most {MOST_STEPS} numbers, inputs, signs and calls"}[what]


def helps_of(line: str, refusal: Refusal, names: Sequence[str]) -> list[str]:
    """What to write instead; `line` has a character for each byte, and `names` are those of blocks."""
    start = refusal.column - 1
    if " takes " in refusal.what:
        more = "or is the `)` missing that ends it before this `,`?" if line[start:start + 1] == "," else "or does this `)` belong further on?"
        return [f"write {CALLS[refusal.what.split(' ')[0]]}", more]
    find = {"no name": of_name, "no =": of_equals, "unknown character": of_character, "half a sign": of_half, "unknown word": of_word, "no value": of_value,
            "no sign": of_sign}.get(refusal.what)
    if find:
        return find(line, start, names)
    better = {"number too large": f"-2^63 is `-{MOST_NUMBER} - 1`", "tests in a row": "write `0 < a and a < 9` for `0 < a < 9`",
              "no (": f"write {CALLS.get(refusal.about.text, '')}" if refusal.about else "",
              ") without (": "remove it, or add the `(`", "( without )": "add the `)` at its place", ", outside a call": "decimals have no comma either: choose a smaller unit",
              f"more than {MOST_STEPS} steps": "split it: one formula gives a part, an actor computes it, and feeds the next"}.get(refusal.what, "")
    return [better] if better else []


def of_name(line: str, start: int, _: Sequence[str]) -> list[str]:
    """A line that doesn't begin with a name."""
    name = re.match("[A-Za-z0-9_]*", line[start:])[0]
    if line[start:].startswith(UNREADABLE):
        return ["save the file as UTF-8, without a byte order mark"]
    if len(name) > 32:
        return [f"this name has {count(len(name), 'letter')}"]
    if name:
        return [f"write `n{name.lstrip('_')}`"]
    return ["a comment begins with `#`" if line[start:start + 1] in "/;-" else "a line is `NAME = FORMULA`, or a comment that begins with `#`"]


def of_equals(line: str, start: int, _: Sequence[str]) -> list[str]:
    """A name without a `=`."""
    rest = line[start:].strip(" \t\r")
    if rest[:1] == ":":
        return ["write `=`"]
    second = re.match(r"([A-Za-z0-9_]+)[ \t]*=", rest)
    name = line[:start].strip(" \t\r")
    return [f"a name has no spaces: write `{name}_{second[1]}`"] if second else ["a line is `NAME = FORMULA`, and a formula has no second line"]


def of_character(line: str, start: int, _: Sequence[str]) -> list[str]:
    """A character that no word has."""
    sign = line[start:].encode("latin-1").decode("utf-8", "replace")[:1]
    if sign == "." and line[start + 1:start + 2] == ".":
        return ["a range is `a >= 1 and a <= 9`"]
    return [SIGNS.get(sign, f"no word has `{shown(sign)}`")]


def of_half(line: str, start: int, _: Sequence[str]) -> list[str]:
    """A `=` or `!` alone."""
    if line[start] == "!":
        return ["write `not(x)`, or `!=` for a test"]
    if line[start + 1:start + 2] in ("<", ">"):
        return [f"write `{line[start + 1]}=`"]
    return ["a test for the same is `==`; a formula has one `=`, after its name"]


def of_word(line: str, start: int, names: Sequence[str]) -> list[str]:
    """A word that isn't one of formulas."""
    word = re.match("[A-Za-z0-9_]+", line[start:])[0]
    if word in names:
        return [f"`{word}` is a block, and a formula can't use another: let an actor compute it, and feed this one", "a formula has the two inputs a and b"]
    if word in MEANT:
        return [f"write `{MEANT[word]}`"]
    lower = word.lower()
    if lower in WORDS:
        return [f"write `{lower}`: words have small letters"]
    if lower in LACKING:
        return [f"there is no `{word}`: {LACKING[lower]}"]
    return [f"no word of formulas{near(word, WORDS)}; the inputs are called a and b"]


def of_value(line: str, start: int, _: Sequence[str]) -> list[str]:
    """A word where a formula should be."""
    text, before = line[start:start + 1], line[:start].rstrip(" \t\r")
    cases = [(text == "*" and before.endswith("*"), "there is no power: write `a * a`"), (text == "/" and before.endswith("/"), "`/` cuts toward zero by itself"),
             (text == "+", "a number has no `+` before it"), (text == "=" and before[-1:] in ("<", ">"), "write `<=` and `>=` without a space"),
             (text == ">" and before.endswith("<"), "write `!=`"), (text == ")" and before.endswith("("), "the parentheses are empty"),
             (text in (")", ",") and before.endswith(","), "a value is missing after the `,`"), (not text, "the formula goes on to the end of its line alone")]
    return [better for holds, better in cases if holds][:1]


def of_sign(line: str, start: int, _: Sequence[str]) -> list[str]:
    """Two values in a row."""
    before, text = line[:start].rstrip(" \t\r"), line[start:]
    if re.search(r"(?<![A-Za-z0-9_])[0-9]+$", before) and re.match("[A-Za-z(]", text):
        return ["a product has a sign: write `2 * a`"]
    if re.search(r"[0-9]$", before) and re.match("[0-9]", text):
        return ["a number has no spaces in it"]
    if text.startswith("("):
        return ["a product has a sign: write `a * (b + 1)`"]
    return ["put a sign between the two, as `+`, `*`, `and`"]
