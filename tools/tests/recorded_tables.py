"""What the checks of `ptides rows` share: a folder of their own, tables in it, and refusals in one line."""
from __future__ import annotations

import shutil
import tempfile
from pathlib import Path

from counted import Case, Done, companion


class Tables(Case):
    """Rows of small recordings, in a folder of their own."""

    def setUp(self) -> None:
        self.folder = Path(tempfile.mkdtemp())
        self.addCleanup(shutil.rmtree, self.folder)

    def rows(self, *words: str) -> Done:
        """Runs `rows` in the folder."""
        return companion("rows", *words, folder=self.folder)

    def table(self, text: str, *words: str) -> Done:
        """Rows of a table whose stamps are in the column t and values in the column v."""
        (self.folder / "t.csv").write_text(text)
        return self.rows("csv", "t.csv", "--stamp", "t", "--value", "v", *words)

    def refuses(self, done: Done, line: str) -> None:
        """One line, status 1, and no output."""
        self.assertEqual((done.status, done.output, done.notes), (1, "", f"ptides rows: {line}\n"))
