#!/usr/bin/env python3
"""Checks the manual pages and the completion of the companions, their help in a terminal of 80 columns, and their versions."""
from __future__ import annotations

import ast
import os
import re
import subprocess
import sys

from counted import TOP, Case, companion, main, run

NAMES = sorted(path.name[len("ptides-"):] for path in (TOP / "tools").glob("ptides-*"))
MANUALS = TOP / "docs" / "man"


class Manuals(Case):
    """What is made from the parsers."""

    def test_pages_are_as_they_are_made(self) -> None:
        """The pages and the completion are what their maker writes, one page for each companion."""
        done = run([sys.executable, TOP / "tools" / "make-companion-pages.py", "--check"], TOP)
        self.assertEqual((done.status, done.output, done.notes), (0, "", ""))
        self.assertEqual(sorted(path.name for path in MANUALS.iterdir()), [f"ptides-{name}.1" for name in NAMES])

    def test_pages_have_all_options(self) -> None:
        """Each option that -h shows is on the page, and the page of ptides names the page."""
        main_page = (TOP / "docs" / "ptides.1").read_text()
        for name in NAMES:
            with self.subTest(name=name):
                page = (MANUALS / f"ptides-{name}.1").read_text().replace("\\-", "-")
                options = set(re.findall(r"(?<![\w-])--?[a-z][a-z-]*", companion(name, "-h", folder=TOP).output.split("options:")[1].split("\n\n")[0]))
                self.assertTrue(options)
                self.assertEqual([option for option in options if f"\\fB{option}\\fR" not in page], [])
                self.assertIn(f".Xr ptides-{name} 1", main_page)

    def test_pages_are_roff(self) -> None:
        """mandoc finds no fault in the pages, and in 80 columns no text but that of examples is wider."""
        self.need("mandoc")
        for path in sorted(MANUALS.iterdir()):
            with self.subTest(path=path.name):
                done = run(["mandoc", "-T", "lint", "-W", "error", path], TOP)
                self.assertEqual((done.status, done.output), (0, ""))
                shown = subprocess.run(["mandoc", "-T", "ascii", "-O", "width=78", path], capture_output=True, text=True, check=True).stdout
                plain = re.sub(".\b", "", shown)
                self.assertEqual([line for line in plain.splitlines() if len(line) > 80 and "ptides" not in line], [])

    def test_help_in_80_columns(self) -> None:
        """No line of a help is wider than a terminal of 80 columns."""
        for words in [[name] for name in NAMES] + [["rows", kind] for kind in ("candump", "can", "vcd", "csv", "air")]:
            with self.subTest(words=words):
                done = subprocess.run([sys.executable, "-S", TOP / "tools" / f"ptides-{words[0]}", *words[1:], "-h"], capture_output=True, text=True, check=False,
                                      env={**os.environ, "COLUMNS": "80"})
                self.assertEqual((done.returncode, [line for line in done.stdout.splitlines() if len(line) > 80]), (0, []))

    def test_versions(self) -> None:
        """Each companion writes its version, which is that of ptides."""
        version = (TOP / "VERSION").read_text().strip()
        for name in NAMES:
            self.assertEqual(companion(name, "--version", folder=TOP), (0, f"ptides {name} {version}\n", ""))

    def test_for_python_39(self) -> None:
        """All that a companion uses is read by the oldest Python."""
        for path in [*(TOP / "python").rglob("*.py"), *(TOP / "tools").glob("ptides-*")]:
            with self.subTest(path=path.name):
                ast.parse(path.read_text(), feature_version=(3, 9))

    def test_files_are_short(self) -> None:
        """No file of Python has more than some 500 lines."""
        for path in [*(TOP / "python").rglob("*.py"), *(TOP / "tools").glob("ptides-*")]:
            self.assertLess(len(path.read_text().splitlines()), 520, path)


if __name__ == "__main__":
    main()
