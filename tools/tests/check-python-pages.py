#!/usr/bin/env python3
"""Runs what docs/PYTHON.md and docs/REPORT.md show: the examples for Python, the tests, and the commands."""
from __future__ import annotations

import doctest
import os
import re
import shutil
import subprocess
import sys
import tempfile
import unittest
from pathlib import Path

import pythons

pythons.prefer("pandas", "pytest", "xdist")
sys.path.insert(0, str(pythons.PACKAGE))

from counted import TOP, Case, main  # noqa: E402

PAGES = ("PYTHON.md", "REPORT.md")


def blocks(page: str, kind: str) -> list[str]:
    """The blocks of this kind on a page."""
    return re.findall(rf"^```{kind}\n(.*?)^```$", (TOP / "docs" / page).read_text(), re.MULTILINE | re.DOTALL)


class Pages(Case):
    """In a copy of the examples."""

    def setUp(self) -> None:
        self.folder = Path(tempfile.mkdtemp())
        self.addCleanup(shutil.rmtree, self.folder)
        shutil.copytree(TOP / "examples", self.folder / "examples")
        for path in self.folder.rglob("*"):
            path.chmod(0o755 if path.is_dir() else 0o644)
        self.addCleanup(os.chdir, os.getcwd())
        os.chdir(self.folder)

    def test_examples_for_python(self) -> None:
        """Each line gives what is below it."""
        if not pythons.has("pandas"):
            self.skipTest("pandas isn't there")
        for page in PAGES:
            text = "\n\n".join(blocks(page, "pycon"))
            if text:
                found = doctest.DocTestParser().get_doctest(text, {}, page, None, 0)
                runner = doctest.DocTestRunner(optionflags=doctest.ELLIPSIS)
                runner.run(found)
                self.assertEqual((runner.failures, runner.tries > 5), (0, True))

    def test_tests(self) -> None:
        """The tests that the page shows pass where they belong, and so do the scenarios."""
        if not (pythons.has("pytest") and pythons.has("pandas") and pythons.has("xdist")):
            self.skipTest("pytest, xdist or pandas isn't there")
        (text,) = blocks("PYTHON.md", "python")
        valve, lost, link = text.split("import pytest\n\n\n", 1)[1].split("\n\n\n")
        (self.folder / "examples/governor/test_governor.py").write_text(f"{valve}\n\n\n{link}")
        (self.folder / "examples/stand/scenarios/test_stand.py").write_text(f"import pytest\n\n\n{lost}")
        (command,) = (line for block in blocks("PYTHON.md", "text") for line in block.splitlines() if line.startswith("$ pytest "))
        around = {**os.environ, "PYTHONPATH": str(pythons.PACKAGE), "PYTEST_PLUGINS": "ptides.pytest_plugin", "PYTHONDONTWRITEBYTECODE": "1"}
        for words, passed in ((command.split()[2:], "35 passed"), (["examples/governor"], "6 passed")):
            done = subprocess.run([sys.executable, "-m", "pytest", "-q", "-p", "no:cacheprovider", *words], env=around, capture_output=True, text=True, check=False)
            self.assertIn(passed, done.stdout)

    def test_commands(self) -> None:
        """The commands of the report page write nothing but their pages."""
        if not Path("/usr/share/javascript/dygraphs").exists():
            self.skipTest("libjs-dygraphs isn't there")
        for line in "\n".join(blocks("REPORT.md", "console")).splitlines():
            command = line[2:].replace("./ptides", str(TOP / "ptides"))
            done = subprocess.run(["sh", "-c", command], capture_output=True, text=True, check=False)
            self.assertEqual((done.returncode, done.stdout, done.stderr), (0, "", ""))
        self.assertTrue((self.folder / "examples/tank/tank.html").exists())


if __name__ == "__main__":
    main()
