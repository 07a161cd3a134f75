#!/usr/bin/env python3
"""Checks tools/soak.sh: it finds no difference in the program, and one in each program that makes a mistake."""
from __future__ import annotations

import os
import re
import subprocess
import tempfile
from pathlib import Path
from typing import Any, Callable, NamedTuple
from unittest import mock

from counted import TOP, Case, main, run
import judges
import testers

soak = testers.module("soak")
SEEDS = range(1, 60)


class Answer(NamedTuple):
    """What a command answers, and its words."""
    words: list[str]
    status: int
    output: str
    notes: str

    def calls(self, command: str) -> bool:
        """Whether this is the answer to the command."""
        return self.words[0] == command

    def output_with(self, pattern: str, other: Any) -> Answer:
        """The answer with the first match of the pattern in the output replaced."""
        return self._replace(output=re.sub(pattern, other, self.output, count=1, flags=re.MULTILINE))

    def notes_with(self, pattern: str, other: Any) -> Answer:
        """The same in the notes."""
        return self._replace(notes=re.sub(pattern, other, self.notes, count=1))


def one_more(found: re.Match[str]) -> str:
    """The number after the first group with one added."""
    return f"{found[1]}{int(found[2]) + 1}"


def later(answer: Answer) -> Answer:
    """A log in which each platform reads one more."""
    return answer._replace(output=re.sub(r"^(turn,\w+),(\d+),(\d+)", lambda turn: f"{turn[1]},{int(turn[2]) + 1},{int(turn[3]) + 1}", answer.output, flags=re.MULTILINE))


def many_workers(answer: Answer) -> bool:
    """Whether there is more than one worker."""
    return "--workers" in answer.words and answer.words[answer.words.index("--workers") + 1] != "1"


def clock_of(answer: Answer) -> str:
    """The clock of a run."""
    return answer.words[answer.words.index("--clock") + 1] if "--clock" in answer.words else "paced"


TABLE_BYTE = r"^(\w+,\d+,\d+,-?\d*)(\d)$"
# What the program does wrong, and when: the answer that it gives instead.
MISTAKES: dict[str, Callable[[Answer], Answer]] = {
    "a byte of a table of run": lambda answer: answer.output_with(TABLE_BYTE, one_more) if answer.calls("run") else answer,
    "a byte of a table of meaning": lambda answer: answer.output_with(TABLE_BYTE, one_more) if answer.calls("meaning") else answer,
    "an event less everywhere": lambda answer: answer.output_with(r"^\w+,\d+,\d+,-?\d+\n", "") if answer.words[0] in ("run", "meaning", "replay") else answer,
    "a byte of a table of replay": lambda answer: answer.output_with(TABLE_BYTE, one_more) if answer.calls("replay") else answer,
    "a row less in a log": lambda answer: answer.output_with(r"^row,.*\n", "") if answer.calls("run") else answer,
    "a post less in a log": lambda answer: answer.output_with(r"^post,.*\n", "") if answer.calls("run") else answer,
    "a log that ends too early": lambda answer: answer._replace(output=answer.output[:-10]) if "--log" in answer.words else answer,
    "no log": lambda answer: answer.output_with(r"^log\n(.*\n)*", ""),
    "a log that wasn't asked for": lambda answer: answer._replace(output=answer.output + "log\n") if answer.calls("run") and "--log" not in answer.words and answer.status == 0 else answer,
    "status 0 for 5": lambda answer: answer._replace(status=0) if answer.status == 5 else answer,
    "status 5 for 0": lambda answer: answer._replace(status=5) if answer.status == 0 and answer.calls("run") else answer,
    "status 0 for 4": lambda answer: answer._replace(status=0) if answer.status == 4 else answer,
    "a miss less": lambda answer: answer.notes_with(r"missed .*\n", "") if answer.status == 5 else answer,
    "a miss with another limit": lambda answer: answer.notes_with(r"(past )(\d+)", one_more) if answer.status == 5 else answer,
    "another late row": lambda answer: answer.notes_with(r"(late \w+ row )(\d+)", one_more),
    "another late message": lambda answer: answer.notes_with(r"(late \w+ at \d+\.\d+, reading \d+ past )(\d+)", one_more),
    "another row of the recording": lambda answer: answer.notes_with(r"(air row )(\d+)", one_more),
    "no row of the recording": lambda answer: answer.notes_with(r", air row \d+", ""),
    "late readings": lambda answer: later(answer) if answer.calls("run") and clock_of(answer) == "paced" else answer,
    "late readings in a replay": lambda answer: later(answer) if answer.calls("replay") else answer,
    "by several workers a carriage return": lambda answer: answer.output_with("\n", "\r\n") if many_workers(answer) else answer,
    "by several workers another log": lambda answer: later(answer) if many_workers(answer) and clock_of(answer).startswith("step") else answer,
    "a byte of the text of a graph": lambda answer: answer.output_with('"until":(?=.)', '"until":1') if answer.calls("migrate") else answer,
    "another run of a text": lambda answer: answer.output_with(TABLE_BYTE, one_more) if "migrated.json" in answer.words and answer.calls("run") else answer,
    "a greater margin": lambda answer: answer.output_with(r"^(\w+,-?\d+,)(\d+)$", one_more) if answer.calls("check") else answer,
    "another offset": lambda answer: answer.output_with(r"^(\w+,)(\d+)(?=,)", one_more) if answer.calls("check") else answer,
    "slacks that aren't least": lambda answer: answer.output_with(r"^(\w+,)(\d+)$", one_more) if answer.calls("slacks") else answer,
    "a miss within the slacks": lambda answer: answer._replace(status=5, notes="missed w at 1.0, reading 3 past 2\n") if "slacked.json" in answer.words and answer.calls("run") else answer,
    "too little slack is enough": lambda answer: answer._replace(status=0, notes="") if "less.json" in answer.words else answer,
    "another sender": lambda answer: answer.notes_with(r"infeasible \w+", "infeasible other"),
    "an empty file is taken": lambda answer: answer._replace(status=0, notes="") if answer.status == 3 else answer,
    "all is lawful": lambda answer: answer._replace(status=0, output="lawful\n", notes="") if answer.calls("audit") else answer,
    "nothing is lawful": lambda answer: answer._replace(status=10, output="", notes="unlawful: table\n") if answer.calls("audit") else answer,
    "another number of claims": lambda answer: answer._replace(output=answer.output + "\n") if "--claims" in answer.words and answer.calls("run") else answer,
    "a crash": lambda answer: answer._replace(status=-11, output="", notes="") if answer.words[-1] == "64" else answer,
    "memory": lambda answer: answer._replace(status=9, output="", notes="memory\n") if "machine" in answer.words else answer,
}


class Found(BaseException):
    """A difference was found, so that the rest of the graph needn't be tried."""


class Soak(Case):
    """The comparisons, and the script around them."""

    def setUp(self) -> None:
        folder = tempfile.TemporaryDirectory()
        self.addCleanup(folder.cleanup)
        self.folder = Path(folder.name)
        self.program = os.environ["PTIDES"]
        self.usage = soak.usage_of(self.program)
        # What is stored of a difference goes away with the folder.
        patch = mock.patch.object(tempfile, "tempdir", folder.name)
        patch.start()
        self.addCleanup(patch.stop)

    def is_found(self, mistake: Callable[[Answer], Answer]) -> bool:
        """Whether one of the graphs shows a difference if the program makes this mistake."""
        really = subprocess.run

        def mistaken(command: list[str], **options: Any) -> Any:
            done = really(command, **options)
            answer = mistake(Answer(command[1:], done.returncode, done.stdout.decode(), done.stderr.decode()))
            return subprocess.CompletedProcess(command, answer.status, answer.output.encode(), answer.notes.encode())

        with mock.patch.object(judges.subprocess, "run", mistaken), mock.patch.object(soak, "report", side_effect=Found):
            try:
                for seed in SEEDS:
                    soak.graph(self.program, self.usage, seed, str(self.folder / "graph"))
            except Found:
                return True
        return False

    def test_mistakes(self) -> None:
        """Each mistake is found."""
        for what, mistake in MISTAKES.items():
            with self.subTest(mistake=what):
                self.assertTrue(self.is_found(mistake))

    def script(self, seconds: int, program: Path | str, **environment: str) -> Any:
        """What soak.sh says of a program."""
        words = ["env", f"TMPDIR={self.folder}", *(f"{name}={value}" for name, value in environment.items()), TOP / "tools/soak.sh", seconds, program]
        return run(words, self.folder)

    def test_program(self) -> None:
        """The program has no difference."""
        done = self.script(5, self.program, SEED="7", JOBS="2")
        self.assertEqual((done.status, done.notes), (0, ""))
        self.assertRegex(done.output, r"^[1-9]\d* graphs, [1-9]\d* cases: .*, 0 differences\n$")

    def test_report(self) -> None:
        """A difference is reported with its seed, and its command shows it again in the folder that is named."""
        other = self.folder / "other"
        other.write_text(f'#!/bin/sh\n"{self.program}" "$@" | sed "s/lawful/lawless/"\n')
        other.chmod(0o755)
        done = self.script(3, other, SEED="5")
        self.assertEqual(done.status, 1)
        found = re.search(r"^difference: SEED=(\d+): (.*): (.*) in (.*)$", done.output, re.MULTILINE)
        assert found is not None
        seed, what, command = (Path(found[4]) / "difference").read_text().splitlines()
        self.assertEqual((seed, what, command), (f"SEED={found[1]}", found[2], f"{other} {found[3]}"))
        again = run(command.split(" "), Path(found[4]))
        self.assertNotEqual(again, run([self.program, *command.split(" ")[1:]], Path(found[4])))
        self.assertRegex(done.output, r", [1-9]\d* differences\n$")

    def test_words(self) -> None:
        """Bad words give the usage line."""
        for words in ([], ["0"], ["x"], ["1", "2", "3"]):
            with self.subTest(words=words):
                done = run([TOP / "tools/soak.sh", *words], self.folder)
                self.assertEqual((done.status, done.output, done.notes), (2, "", "usage: tools/soak.sh SECONDS [PROGRAM]\n"))


if __name__ == "__main__":
    os.environ.setdefault("PTIDES", str(TOP / "ptides"))
    main()
