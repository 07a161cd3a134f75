"""Random files of formulas, mutants of them, and graphs in which every formula is an actor and some are guards."""
from __future__ import annotations

import json
import random
from pathlib import Path
from typing import Any, NamedTuple, Optional

from formula_values import CLOSED, FUNCTIONS, LEAST, LEVEL_OF_MINUS, LEVELS, MOST, MOST_BYTES, OF_THE_PROGRAM, TESTS, Step, value_of

Blocks = dict[str, list[Step]]
# The word of a node, and its parts.
Tree = tuple[Any, ...]
LETTERS = "ABCDEFGHIJKLMNOPQRSTUVWXYZabcdefghijklmnopqrstuvwxyz"
EDGES = [0, 1, 2, 3, 5, 7, 10, 100, 1000, 2**31 - 1, 2**31, 2**32, 3037000499, 3037000500, 10**12, 2**53, 10**18, 2**62 - 1, 2**62, 2**62 + 1, MOST - 1, MOST]
WORDS = ["a", "b", "and", "or", *FUNCTIONS, *LEVELS, "(", ")", ",", "0", "1", "9223372036854775807", "9223372036854775808", "=", "!", "x", "_", "A", "3a"]
BYTES = b"ab01x_(),+-*/%<>=! \t\r\n#" + b"minfoad"
SPACE = [""] * 6 + [" "] * 6 + ["  ", "\t", "\r", " \t "]


class Made(NamedTuple):
    """A file of formulas, and the blocks that it gives."""
    data: bytes
    blocks: Blocks


def steps_of(tree: Tree) -> list[Step]:
    """The steps of a tree, in the order in which they are computed."""
    word, *parts = tree
    return [step for part in parts for step in steps_of(part)] + [Step(word, len(parts))]


class Maker:
    """Makes random things from a seed."""

    def __init__(self, seed: Any) -> None:
        self.random = random.Random(seed)

    def number(self) -> int:
        """A number that is no less than 0, often at an edge."""
        return self.random.choice(EDGES) if self.random.random() < 0.6 else self.random.getrandbits(self.random.randrange(1, 64))

    def value(self) -> int:
        """A value of 64 bits, often at an edge."""
        return self.random.choice([LEAST, LEAST + 1]) if self.random.random() < 0.1 else self.number() * self.random.choice([1, 1, -1])

    def tree(self, size: int) -> Tree:
        """A formula with as many steps."""
        if size == 1:
            return (self.random.choice(["a", "a", "b", "b", str(self.number())]),)
        counts = [1, 1] if size == 2 else [1, 2, 2, 2] if size == 3 else [1, 2, 2, 2, 2, 3]
        count = self.random.choice(counts)
        cuts = sorted(self.random.sample(range(1, size - 1), count - 1))
        sizes = [end - start for start, end in zip([0, *cuts], [*cuts, size - 1])]
        functions = [name for name in FUNCTIONS if FUNCTIONS[name][0] == count]
        words = {1: ["-", "-", *functions], 2: [*LEVELS, *functions], 3: functions}[count]
        return (self.random.choice(words), *(self.tree(each) for each in sizes))

    def words(self, tree: Tree, least: int = CLOSED) -> list[str]:
        """A formula as words, with parentheses if it binds less tightly than `least`, and sometimes without need."""
        word, *parts = tree
        level = LEVEL_OF_MINUS + 1
        if not parts:
            words = ["0" * self.random.randrange(4) * (self.random.random() < 0.1) + word if word.isdigit() else word]
        elif word in FUNCTIONS:
            words = [word, "("]
            for part in parts:
                words += [*self.words(part), ","]
            words[-1] = ")"
        elif len(parts) == 1:
            level = LEVEL_OF_MINUS
            words = ["-", *self.words(parts[0], level)]
        else:
            level = LEVELS[word]
            words = [*self.words(parts[0], level + (word in TESTS)), word, *self.words(parts[1], level + 1)]
        extra = self.random.randrange(1, 3) if self.random.random() < 0.08 else 0
        extra = max(extra, level < least)
        return ["("] * extra + words + [")"] * extra

    def joined(self, words: list[str]) -> str:
        """The words with random blanks, at least one where two words would be one otherwise."""
        text = self.random.choice(SPACE)
        for before, word in zip([""] + words, words):
            is_one = before[:1].isalpha() and (word[0].isalnum() or word[0] == "_")
            text += (" " if is_one and text[-1:].isalnum() else "") + word + self.random.choice(SPACE)
        return text

    def name(self, taken: Any) -> str:
        """A name that isn't taken; sometimes a word of formulas, or as long as it may be."""
        while True:
            length = self.random.choice([1, 2, 3, 8, 31, 32])
            name = self.random.choice(LETTERS) + "".join(self.random.choice(LETTERS + "0123456789_") for _ in range(length - 1))
            if self.random.random() < 0.05:
                name = self.random.choice(["a", "b", "and", "or", *FUNCTIONS])
            if name not in taken and name not in OF_THE_PROGRAM:
                return name

    def size(self) -> int:
        """How many steps a formula has."""
        return 64 if self.random.random() < 0.04 else self.random.randrange(1, self.random.choice([8, 16, 32, 65]))

    def comment(self) -> bytes:
        """A comment of any bytes, or none."""
        if self.random.random() < 0.7:
            return b""
        return b"#" + self.random.randbytes(self.random.randrange(12)).replace(b"\n", b"\r")

    def file(self, count: int) -> Made:
        """A file with as many formulas, or with fewer if it gets too long."""
        blocks: Blocks = {}
        data = b""
        for _ in range(count):
            tree, name = self.tree(self.size()), self.name(blocks)
            line = self.random.choice(SPACE) + name + self.random.choice(SPACE) + "=" + self.joined(self.words(tree))
            lines = line.encode("ascii") + self.comment() + self.random.choice([b"\n", b"\n", b"\r\n"])
            if self.random.random() < 0.2:
                lines += self.random.choice(SPACE).encode() + self.comment() + b"\n"
            if len(data) + len(lines) <= MOST_BYTES:
                data += lines
                blocks[name] = steps_of(tree)
        return Made(data[:-1] if self.random.random() < 0.3 else data, blocks)

    def spare(self, blocks: Blocks) -> bytes:
        """A line feed, and a formula in a comment; its name may be there already."""
        names = [self.name(blocks), self.random.choice(OF_THE_PROGRAM), *list(blocks)[:1]]
        return b"\n#" + self.random.choice(names).encode("ascii") + b" = a"

    def byte_mutant(self, data: bytes, place: Optional[int] = None) -> bytes:
        """The file with one byte changed, inserted or removed, or with two swapped."""
        changed = bytearray(data)
        if place is None:
            place = self.random.randrange(len(data))
        byte = self.random.choice(BYTES) if self.random.random() < 0.8 else self.random.randrange(256)
        kind = self.random.randrange(4)
        if kind == 0:
            changed[place] = byte
        elif kind == 1:
            changed.insert(place + self.random.randrange(2), byte)
        elif kind == 2:
            del changed[place]
        else:
            other = min(place + 1, len(data) - 1) if self.random.random() < 0.5 else self.random.randrange(len(data))
            changed[place], changed[other] = changed[other], changed[place]
        return bytes(changed)

    def word_mutant(self) -> bytes:
        """A file whose one formula has words changed, inserted, removed or swapped."""
        words = self.words(self.tree(min(self.size(), 24)))
        for _ in range(self.random.randrange(1, 4)):
            place, other = self.random.randrange(len(words)), self.random.randrange(len(words))
            kind = self.random.randrange(4)
            if kind == 0:
                words[place] = self.random.choice(WORDS)
            elif kind == 1:
                words.insert(place, self.random.choice(WORDS))
            elif kind == 2 and len(words) > 1:
                del words[place]
            elif kind == 3:
                words[place], words[other] = words[other], words[place]
        return (self.name(()) + "=" + self.joined(words)).encode("ascii") + self.comment()

    def rows(self, count: int) -> list[tuple[int, dict[str, int]]]:
        """Times, and the values of the sensors that have one then."""
        return [(1000 * number, {name: self.value() for name in self.random.choice(["st", "st", "st", "s", "t"])}) for number in range(1, count + 1)]


class Machine(NamedTuple):
    """A machine with guards: the sensor that feeds it, its first state, and its rows."""
    source: str
    start: int
    rows: list[dict[str, Any]]


class Trial:
    """A graph in which each formula is an actor that two sensors feed, and some are guards of machines."""

    def __init__(self, maker: Maker, blocks: Blocks, rows: int = 12, machines: int = 0) -> None:
        self.blocks, self.rows = blocks, maker.rows(rows)
        self.sources = {name: maker.random.choice(["st", "st", "st", "st", "ts", "ss", "tt"]) for name in blocks}
        self.machines = [self.machine(maker) for _ in range(machines if blocks else 0)]

    def machine(self, maker: Maker) -> Machine:
        """A machine of three states, whose rows mostly have guards."""
        states = [maker.value() for _ in range(3)]
        rows = []
        for _ in range(maker.random.randrange(4, 12)):
            low, high = sorted([maker.value(), maker.value()]) if maker.random.random() < 0.3 else [LEAST, MOST]
            row = {"state": maker.random.choice(states), "low": low, "high": high, "next": maker.random.choice(states),
                   "emit": [maker.random.randrange(2), maker.value()] if maker.random.random() < 0.9 else None}
            rows.append({**row, "guard": maker.random.choice(list(self.blocks))} if maker.random.random() < 0.9 else row)
        return Machine(maker.random.choice("st"), states[0], rows)

    def write(self, folder: Path) -> None:
        """Writes the graph and the files of its sensors."""
        actors: list[dict[str, Any]] = [{"name": name, "kind": "sensor", "file": f"{name}.csv", "bound": 0} for name in "st"]
        wires = []
        for number, (name, sources) in enumerate(self.sources.items()):
            actors += [{"name": f"f{number}", "kind": "block", "block": name}, {"name": f"of{number}", "kind": "actuator", "slack": 10}]
            wires += [[sources[0], 0, f"f{number}", 0], [sources[1], 0, f"f{number}", 1], [f"f{number}", 0, f"of{number}", 0]]
        for number, machine in enumerate(self.machines):
            actors.append({"name": f"m{number}", "kind": "machine", "start": machine.start, "outputs": 2, "rows": machine.rows})
            actors += [{"name": f"om{number}_{output}", "kind": "actuator", "slack": 10} for output in range(2)]
            wires += [[machine.source, 0, f"m{number}", 0], *([f"m{number}", output, f"om{number}_{output}", 0] for output in range(2))]
        graph = {"ptides": 2, "until": 1_000_000, "clock_error": 0, "clock_errors": [], "platforms": ["p"],
                 "actors": [{**actor, "platform": "p"} for actor in actors], "wires": wires, "links": []}
        (folder / "graph.json").write_text(json.dumps(graph))
        for name in "st":
            rows = "".join(f"{time},{time},{values[name]}\n" for time, values in self.rows if name in values)
            (folder / f"{name}.csv").write_text("time,seen,value\n" + rows)

    def table(self) -> str:
        """The table that the program writes for it."""
        lines = ["actuator,time,step,value"]
        for number, (name, sources) in enumerate(self.sources.items()):
            steps = self.blocks[name]
            lines += [f"of{number},{time},0,{value_of(steps, values.get(sources[0], 0), values.get(sources[1], 0))}"
                      for time, values in self.rows if sources[0] in values or sources[1] in values]
        for number, machine in enumerate(self.machines):
            given = self.emitted(machine)
            lines += [f"om{number}_{output},{time},0,{value}" for wanted in range(2) for time, output, value in given if output == wanted]
        return "\n".join(lines) + "\n"

    def emitted(self, machine: Machine) -> list[tuple[int, int, int]]:
        """What a machine gives: times, outputs and values."""
        state, given = machine.start, []
        for time, values in self.rows:
            if machine.source not in values:
                continue
            taken = next((row for row in machine.rows if self.fits(row, values[machine.source], state)), None)
            if taken:
                state = taken["next"]
                given += [(time, *taken["emit"])] if taken["emit"] else []
        return given

    def fits(self, row: dict[str, Any], value: int, state: int) -> bool:
        """Whether a row of a machine fits."""
        return (row["state"] == state and row["low"] <= value <= row["high"]
                and ("guard" not in row or value_of(self.blocks[row["guard"]], value, state) > 0))
