#!/usr/bin/env python3
"""Checks that the commands on the page of the companions write what is shown there, that each companion says what it gives, and that README
has what a newcomer looks for."""
from __future__ import annotations

import re
import shlex

from counted import TOP, Case, Done, companion, main, ptides

PAGE = TOP / "docs" / "COMPANIONS.md"
README = TOP / "README.md"
# How often the actors of a platform may fire in a run.
MOST_FIRINGS = 200_000


def transcripts(text: str) -> list[tuple[str, list[str]]]:
    """The commands of the blocks of text, each with the lines below it."""
    found: list[tuple[str, list[str]]] = []
    for block in re.findall(r"^```text\n(.*?)^```", text, re.M | re.S):
        for line in block.splitlines():
            if line.startswith("$ "):
                found.append((line[2:], []))
            elif found:
                found[-1][1].append(line)
    return found


def start(command: str, given: str = "") -> Done:
    """Runs `./ptides [-C FOLDER] WORD..`, and what is behind a `|`, as the launcher does."""
    first, _, rest = command.partition(" | ")
    words = shlex.split(first)[1:]
    folder = TOP
    if words[0] == "-C":
        folder, words = TOP / words[1], words[2:]
    run = ptides if words[0] in ("run", "check", "meaning", "make", "migrate", "slacks", "audit", "replay") else companion
    done = run(*words, folder=folder, given=given or None)
    return start(rest, done.output) if rest else done


class Pages(Case):
    """What the page shows."""

    def test_transcripts(self) -> None:
        """A line `...` stands for any lines."""
        found = transcripts(PAGE.read_text())
        self.assertGreater(len(found), 5)
        for command, wanted in found:
            with self.subTest(command=command):
                done = start(command)
                pattern = "".join("(?:.*\n)*?" if line == "..." else re.escape(line) + "\n" for line in wanted)
                self.assertRegex(done.output + done.notes, rf"\A{pattern}\Z")

    def test_heads(self) -> None:
        """Each companion can be executed and has a line that the launcher shows; the page lists each with the same words."""
        table = dict(re.findall(r"^\| \[`ptides (\w+) .*?\]\(#\w+\) \| (.*) \|$", PAGE.read_text(), re.M))
        files = sorted(path for path in (TOP / "tools").glob("ptides-*"))
        self.assertEqual(set(table), {path.name[len("ptides-"):] for path in files})
        for path in files:
            with self.subTest(path=path.name):
                head = path.read_text().split("\n")[:10]
                says = [line[len("# ptides: "):] for line in head if line.startswith("# ptides: ")]
                self.assertEqual((len(says), bool(path.stat().st_mode & 0o111)), (1, True))
                name = path.name[len("ptides-"):]
                self.assertEqual(table[name], says[0])


def number(text: str) -> int:
    """A number with commas, as the last one of a text."""
    return int(text.split()[-1].replace(",", ""))


class Readme(Case):
    """What README has."""

    def test_length(self) -> None:
        """It is read at one sitting."""
        self.assertLessEqual(len(README.read_text().split()), 1200)

    def test_companions(self) -> None:
        """Each companion has a row, and what people come for is named."""
        text = README.read_text()
        listed = re.findall(r"^\| `(\w+) [^`]+` \| ", text, re.M)
        for path in (TOP / "tools").glob("ptides-*"):
            with self.subTest(path=path.name):
                self.assertIn(path.name[len("ptides-"):], listed)
        for word in ("GTKWave", "pandas", "JUnit", "CAN"):
            with self.subTest(word=word):
                self.assertTrue(word in text)

    def test_pages_to_start_with(self) -> None:
        """Each is linked."""
        for path in (TOP / "docs").glob("START-*.md"):
            with self.subTest(path=path.name):
                self.assertTrue(f"(docs/{path.name})" in README.read_text())

    def test_limits(self) -> None:
        """As many actors as the table says can fire for each sample, and no more; and ten actors need the number of claims that it says."""
        found = re.findall(r"^\| ([^|`]+) \| ([\d,]+) \| ([^|]*\d) \|(?: (\d+))? \|$", README.read_text(), re.M)
        self.assertGreater(len(found), 4)
        for what, samples, actors, claims in found:
            parts = 4 if "four parts" in actors else 1
            with self.subTest(what=what):
                self.assertEqual(number(actors), MOST_FIRINGS * parts // number(samples))
                self.assertEqual(int(claims or 0), 10 * number(samples) if 10 * number(samples) > MOST_FIRINGS else 0)


if __name__ == "__main__":
    main()
