#!/usr/bin/env python3
"""Checks the program on random files of formulas and mutants of them: each value and each refusal is what a second reader finds.

    RANDOM_FORMULAS=100000 RANDOM_MUTANTS=20000 RANDOM_SEED=1 tools/tests/check-formula-values.py

What differs is written into a folder that stays.
"""
from __future__ import annotations

import os
import re
import shutil
import subprocess
import tempfile
from collections import Counter
from pathlib import Path
from typing import Iterator

from counted import TOP, Case, main
from formula_values import MOST_BYTES, Refused, blocks_of
from random_formulas import Maker, Trial

FORMULAS = int(os.environ.get("RANDOM_FORMULAS", "1500"))
MUTANTS = int(os.environ.get("RANDOM_MUTANTS", "300"))
SEED = os.environ.get("RANDOM_SEED", "1")
PROGRAMS = (os.environ.get("PTIDES", ""), str(TOP / "out/ptides"), str(TOP / "dist/ptides"))
PROGRAM = next((path for path in PROGRAMS if os.path.isfile(path)), str(TOP / "ptides"))
MOST_FORMULAS = 59
MOST_SECONDS = 60
COMMANDS = (["run", "graph.json"], ["check", "graph.json"], ["meaning", "graph.json"], ["migrate", "graph.json"], ["slacks", "graph.json"],
            ["audit", "graph.json", "run.log"], ["replay", "graph.json", "air.csv"])


def limits() -> Iterator[bytes]:
    """Files at the limits, and one beyond."""
    yield from (start.ljust(length, b".") for length in (MOST_BYTES, MOST_BYTES + 1) for start in (b"x=a#", b"x=", b"x=a\nx=a#"))
    deep = (MOST_BYTES - 3) // 2
    yield from (b"x=" + b"(" * deep + b"a" + b")" * deep, b"x=" + b"(" * 2 * deep)
    yield from (b"x=a" + b"+-a" * 21 + rest for rest in (b"", b"#+a", b"+a", b"+a # \r"))
    yield from (b"x=" + b"-" * signs + b"a" for signs in (63, 64, 65_000))
    many = b"".join(b"n%d=a\n" % number for number in range(MOST_FORMULAS))
    yield from (many + rest for rest in (b"", b"m=a", b"\n#\nm=a\nn7=a", b"m=a\nm=", b"mean=a", b"n0=a\nm=a"))
    yield from (b"x" * letters + b"=a" for letters in (32, 33))
    yield from (b"x=" + digit * 60_000 + b"7" for digit in (b"0", b"7"))
    yield from (b"", b"\n", b"\xef\xbb\xbfx=a", b"x=a\0", b"\0", b"x\0=a", b"x=a\x0b", b"x = a +\t#\r", b"x=\r\n", b"x\r\n", b"x#=a", b"x=a\nx=",
                b"x=a_", b"x=a1", b"x=1a", b"x=1and 2", b"x=min(a", b"x=min", b"x=a=b", b"x==a", b"x=a===b", b"x=a<\r=b")


class Values(Case):
    """Files of formulas, in a folder of their own."""

    def setUp(self) -> None:
        self.folder = Path(tempfile.mkdtemp(prefix="ptides-"))
        self.addCleanup(shutil.rmtree, self.folder)
        self.kinds: Counter[str] = Counter()

    def answer(self, *words: str) -> tuple[int, str, str]:
        """The status, the output and the notes of a command with the file of formulas."""
        done = subprocess.run([PROGRAM, *words, "--blocks", "x.blocks"], cwd=self.folder, stdin=subprocess.DEVNULL, capture_output=True,
                              timeout=MOST_SECONDS, check=False)
        return done.returncode, *(text.decode("ascii", "backslashreplace") for text in (done.stdout, done.stderr))

    def agree(self, what: str, found: tuple[int, str, str], wanted: tuple[int, str, str]) -> None:
        """The answer is the one that is wanted; if not, the files stay, and the first lines that differ are shown."""
        if found == wanted:
            return
        kept = Path(tempfile.mkdtemp(prefix="ptides-kept-"))
        shutil.copytree(self.folder, kept, dirs_exist_ok=True)
        differ = next(((a, b) for a, b in zip(found[1].split("\n"), wanted[1].split("\n")) if a != b), None)
        self.fail(f"{what}: found {found[0]} {found[2]!r}, wanted {wanted[0]} {wanted[2]!r}, first lines that differ: {differ} (files: {kept})")

    def show(self, what: str) -> None:
        """Prints how many there were of each kind."""
        print(f"{what}: " + ", ".join(f"{count} {kind}" for kind, count in self.kinds.most_common()))

    def test_values(self) -> None:
        """Each value of random formulas is the one of the page, in actors and guards; `meaning` and `audit` agree with `run`."""
        number = 0
        while self.kinds["formulas"] < FORMULAS:
            number += 1
            maker = Maker(f"{SEED} {number}")
            made = maker.file(maker.random.choice([MOST_FORMULAS, MOST_FORMULAS, MOST_FORMULAS, maker.random.randrange(1, 60)]))
            trial = Trial(maker, made.blocks, machines=4)
            with self.subTest(file=number):
                self.assertEqual(blocks_of(made.data), made.blocks)
                (self.folder / "x.blocks").write_bytes(made.data)
                trial.write(self.folder)
                table = trial.table()
                status, output, notes = self.answer("run", "graph.json", "--log")
                (self.folder / "run.log").write_text(output)
                self.agree("run", (status, output.partition("log\n")[0], notes), (0, table, ""))
                self.agree("meaning", self.answer("meaning", "graph.json"), (0, table, ""))
                self.agree("audit", self.answer("audit", "graph.json", "run.log"), (0, "lawful\n", ""))
            given = len(re.findall("^om", table, re.MULTILINE))
            self.kinds.update({"files": 1, "formulas": len(made.blocks), "values": table.count("\n") - 1 - given, "values of machines": given})
        self.show("random formulas")

    def try_file(self, maker: Maker, data: bytes) -> None:
        """The program refuses a file with the line of the second reader, or gives the values of its formulas."""
        (self.folder / "x.blocks").write_bytes(data)
        blocks, fault = {}, ""
        try:
            blocks = blocks_of(data)
        except Refused as refused:
            fault = str(refused)
        self.kinds[re.sub(r"blocks: (line \d+(: | column \d+: ))?", "", fault.strip()) or "good"] += 1
        if fault:
            # Every command says the same, and before it looks for any other file.
            command = maker.random.choice(COMMANDS)
            self.agree(f"refused by {command[0]}", self.answer(*command), (2, "", fault))
        else:
            trial = Trial(maker, blocks, rows=4, machines=1)
            trial.write(self.folder)
            self.agree("run", self.answer("run", "graph.json"), (0, trial.table(), ""))

    def test_byte_mutants(self) -> None:
        """Files with one byte changed, inserted or removed, or two swapped."""
        for number in range(MUTANTS):
            maker = Maker(f"{SEED} byte {number}")
            made = maker.file(maker.random.choice([1, 2, 3, 5, 8, MOST_FORMULAS] if number % 10 == 0 else [1, 2, 3, 5, 8]))
            # A formula in a comment is one more where its `#` goes.
            spare = maker.spare(made.blocks) if len(made.blocks) > 50 or number % 4 == 0 else b""
            place = len(made.data) + 1 if spare and maker.random.random() < 0.2 else None
            with self.subTest(mutant=number):
                self.try_file(maker, maker.byte_mutant(made.data + spare, place))
        self.show("mutants by a byte")

    def test_word_mutants(self) -> None:
        """Formulas with up to three words changed, inserted, removed or swapped."""
        for number in range(MUTANTS):
            maker = Maker(f"{SEED} word {number}")
            with self.subTest(mutant=number):
                self.try_file(maker, maker.word_mutant())
        self.show("mutants by words")

    def test_limits(self) -> None:
        """The most bytes, steps, blocks, letters and digits, and one more; and what is missing at an end."""
        for number, data in enumerate(limits()):
            with self.subTest(data=data[:20], bytes=len(data)):
                self.try_file(Maker(f"{SEED} limit {number}"), data)


if __name__ == "__main__":
    main()
