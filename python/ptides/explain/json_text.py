"""JSON with places: reads a text as the program does, or says why it can't be read."""
from __future__ import annotations

import json
import re
from dataclasses import dataclass, field
from typing import Any, NoReturn, Optional, Union

from ptides.explain.findings import Finding, Source, Spot

@dataclass
class Node:
    """A JSON value and its place: `value` is a dict of nodes, a list of nodes, a text, or what is written."""
    kind: str
    value: Any
    start: int
    end: int
    keys: dict[str, tuple[int, int]] = field(default_factory=dict)
    earlier: list[tuple[str, int, int]] = field(default_factory=list)

    def whole(self) -> Optional[int]:
        """The whole number, if it is one that 64 bits with a sign hold."""
        if self.kind != "a number" or not re.fullmatch(r"-?[0-9]{1,19}", self.value) or self.value == "-0":
            return None
        return int(self.value) if -(2**63) <= int(self.value) < 2**63 else None

    def text(self) -> str:
        """The text, or nothing."""
        return self.value if self.kind == "a text" else ""

    def items(self) -> list[Node]:
        """The items of an array."""
        return self.value if self.kind == "an array" else []

    def get(self, key: str) -> Node:
        """The member of an object, or an absent node at the object's place."""
        return (self.value.get(key) if self.kind == "an object" else None) or Node("absent", None, self.start, self.end)

    def number(self, key: str) -> int:
        """The whole number of a member, or 0."""
        return self.get(key).whole() or 0


class NotJson(Exception):
    """The text is no JSON: start and end of the place, what is wrong, and maybe what to change and the bracket that is open there."""


SPACES, WORD = re.compile(r"[ \t\n\r]*"), re.compile(r"[^\s\[\]{},:\"]+|.", re.S)
STRING = re.compile(r'"(?:[^"\\\x00-\x1f]|\\(?:["\\/bfnrt]|u[0-9a-fA-F]{4}))*')
TOKEN = re.compile(rf'(?P<text>{STRING.pattern}")|(?P<sign>[\[\]{{}},:])|'
                   r'(?:(?P<number>-?(?:0|[1-9][0-9]*)(?:\.[0-9]+)?(?:[eE][+-]?[0-9]+)?)|(?P<word>true|false|null))(?=[\s\[\]{},:"]|\Z)')
# What was probably meant by a word that JSON doesn't allow at its place.
HABITS = [(r"//|/\*|#", "JSON has no comments: remove it"), ("'", "write texts in double quotes"), ("=", "write `:` for `=`"),
          (";", "write `,` for `;`"), ("True|False", "write true or false"), ("None|undefined|NaN", "write null, or a number"),
          (r"[+.][0-9]", "write a digit first: 5, 0.5"), ("[0-9]+$", "write thousands without a `,`: 1000"),
          ("\ufeff", "this is a byte order mark: save the file as UTF-8 without it"),
          ("[A-Za-z_]", "write it in double quotes, if it is a text or the name of a member")]


class Reader:
    """Reads a text as the program does: JSON of at most 127 brackets within each other, numbers that a float holds."""

    def __init__(self, text: str):
        self.text, self.at = text, 0
        self.opened: list[int] = []

    def whole_text(self) -> Node:
        """The value that is the whole text."""
        node = self.value()
        if self.peek():
            raise NotJson(self.at, self.at + 1, "the graph ended before this, and nothing may follow it")
        return node

    def peek(self) -> str:
        """The sign after the spaces that are next."""
        self.at = SPACES.match(self.text, self.at).end()
        return self.text[self.at:self.at + 1]

    def take(self, wanted: str, kinds: str, signs: str) -> tuple[str, str, int]:
        """The next token, its kind and its place, if it is of one of the kinds or one of the signs."""
        self.peek()
        found = TOKEN.match(self.text, self.at)
        if not found or not (found.lastgroup in kinds or found.lastgroup == "sign" and found[0] in signs):
            self.refuse(wanted, found[0] if found else "", "number" in kinds)
        self.at = found.end()
        if found.lastgroup == "number" and abs(float(found[0])) == float("inf"):
            raise NotJson(found.start(), self.at, "too large a number", "a time is at most 10^15")
        if found.lastgroup == "text" and any("\ud800" <= sign <= "\udfff" for sign in json.loads(found[0])):
            raise NotJson(found.start(), self.at, "half of a pair of escapes, without the other half")
        return found.lastgroup, found[0], found.start()

    def value(self) -> Node:
        """The next value."""
        kind, token, start = self.take("a value", "text number word", "[{")
        if kind == "sign":
            return self.entries(Node("an object", {}, start, start) if token == "{" else Node("an array", [], start, start))
        return Node({"text": "a text", "number": "a number"}.get(kind, token), json.loads(token) if kind == "text" else token, start, self.at)

    def entries(self, node: Node) -> Node:
        """The members of an object, or the items of an array."""
        if len(self.opened) == 127:
            raise NotJson(node.start, node.start + 1, "the 128th bracket within another; 127 are allowed")
        self.opened.append(node.start)
        close = "}" if node.kind == "an object" else "]"
        sign = self.take("", "", close)[1] if self.peek() == close else ","
        while sign != close:
            if close == "}":
                self.member(node)
            else:
                node.value.append(self.value())
            _, sign, at = self.take(f"a `,` or the closing `{close}`", "", "," + close)
            if sign == "," and self.peek() in ("]", "}"):
                raise NotJson(at, at + 1, f"a `,` with nothing after it but `{self.peek()}`", "remove this `,`", node.start)
        node.end = self.at
        self.opened.pop()
        return node

    def member(self, node: Node) -> None:
        """A member of an object."""
        _, token, start = self.take("the name of a member, in double quotes,", "text", "")
        key = json.loads(token)
        node.earlier += [(key, *node.keys[key])] if key in node.keys else []
        node.keys[key] = (start, self.at)
        self.take("a `:`", "", ":")
        node.value[key] = self.value()

    def refuse(self, wanted: str, token: str, value: bool) -> NoReturn:
        """What is here isn't what was wanted."""
        at, inside = self.at, self.opened[-1] if self.opened else None
        if at >= len(self.text):
            last = max(0, len(self.text.rstrip()) - 1)
            empty = "" if self.text.strip() else "the file is empty"
            raise NotJson(last, last + 1, f"the file ends here, and {wanted} is missing", empty, inside)
        word = token or WORD.match(self.text, at)[0]
        if word == '"':
            end = STRING.match(self.text, at).end()
            if self.text[end:end + 1] == "\\":
                raise NotJson(end, end + 2, "no escape of JSON", "write `\\\\` for a backslash")
            ended = "the line or the file ends within this text, or a control character is in it"
            raise NotJson(at, end + 1, ended, "is the closing `\"` missing?")
        if value and re.match("-?[0-9]", word):
            plain = re.sub("[_']", "", word)
            better = f"write {int(plain)}" if re.fullmatch("-?[0-9]+", plain) else "write digits alone, as 1500"
            raise NotJson(at, at + len(word), "a number of JSON isn't written like this", better)
        better = next((text for form, text in HABITS if re.match(form, word)), "")
        raise NotJson(at, at + len(word), f"{wanted} was expected here", better, inside)


def read_json(source: Source, data: bytes) -> Union[Node, Finding]:
    """The value of the text, or why there is none."""
    try:
        data.decode("utf-8")
        return Reader(source.text).whole_text()
    except UnicodeDecodeError as fault:
        at = len(data[:fault.start].decode("utf-8"))
        wide = "it is UTF-16 now" if data[:2] in (b"\xff\xfe", b"\xfe\xff") else "as editors do"
        return Finding(Spot(source, at, at + 1, "these bytes aren't UTF-8"), "a JSON text in UTF-8", [f"save the file as UTF-8: {wide}"])
    except NotJson as fault:
        start, end, label, better, opened = [*fault.args, *["", None][len(fault.args) - 3:]]
        notes = [] if opened is None else [Spot(source, opened, opened + 1, "the bracket that is open there")]
        return Finding(Spot(source, start, end, label), "a JSON text", [better], notes)
