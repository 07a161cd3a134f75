#!/usr/bin/env python3
"""Checks tools/check-names.py on small projects: names that aren't where a document says."""
from __future__ import annotations

import tempfile
from pathlib import Path

from counted import TOP, Case, Done, main, run

FILES = {
    "crates/pt_one/specs/Tags.antt": "-- t comes before u\nabbrev pub Before : Tag → Tag → Type 0\nBefore t u = t < u\n\nabbrev pub ◌>>=◌ : Tag → Tag\n◌>>=◌ t = t\n",
    "crates/pt_one/specs/Edges.antt": "pub use Rattle.pt_types.specs.declared.graph.Edge.{Edge, Wire}\npub record IsRun (g : Graph) : Type 0 where\n  pub all : g ≡ g\n",
    "crates/pt_two/specs/Runs.antt": "use Rattle.pt_one.specs.Tags.{Before}\nabbrev pub IsFirst : Tag → Type 0\nIsFirst t = Before t t\n\nabbrev pub ◌>>=◌ : Tag → Tag\n◌>>=◌ t = t\n",
    "crates/pt_two/proofs/Rows.antt": "pub rows_end : (n : ℕ) → Type 0\nrows_end n = n\n",
    "docs/A.md": "`Before` in `Tags.antt`, `IsRun` and `Edge` in `pt_one/specs/Edges.antt`, `IsFirst` (`crates/pt_two/specs/Runs.antt`), `rows_end` (`Rows.antt`).\n"
                 "Then `pt_two` (`specs/Runs.antt`), and **`Runs.antt`**,\n`IsFirst`.\n```\n`IsLast` in `Runs.antt`\n```\n",
}


class Names(Case):
    """Small projects."""

    def check(self, **changes: str) -> Done:
        """What the check says of the project with other texts, each by the name of its file without folder and end."""
        with tempfile.TemporaryDirectory() as folder:
            for path, text in FILES.items():
                file = Path(folder) / path
                file.parent.mkdir(parents=True, exist_ok=True)
                file.write_text(changes.get(file.stem, text), encoding="utf-8")
            return run([TOP / "tools/check-names.py", folder], TOP)

    def expect_line(self, line: str, **changes: str) -> None:
        """The check fails with this line alone."""
        done = self.check(**changes)
        self.assertEqual((done.status, done.notes, done.output.splitlines()[:-1]), (1, "", [f"failed: {line}"]))
        self.assertRegex(done.output.splitlines()[-1], r"^\d+ passed, 1 failed$")

    def test_good(self) -> None:
        """A project without a fault: two statements, and six names with a file. A document's code cites nothing."""
        self.assertEqual(self.check(), Done(0, "8 passed, 0 failed\n", ""))

    def test_twice(self) -> None:
        """Two crates may define one name: a document may cite either by its file."""
        done = self.check(Runs=FILES["crates/pt_two/specs/Runs.antt"].replace("IsFirst", "IsRun"),
                          A="`IsRun` in `pt_one/specs/Edges.antt`, `IsRun` in `pt_two/specs/Runs.antt`.\n")
        self.assertEqual((done.status, done.notes), (0, ""))

    def test_places(self) -> None:
        """A name in another file, one that is nowhere, and one that a file only uses."""
        for text, name, files, place in [
                ("`IsRun` in `Tags.antt`", "IsRun", "Tags.antt", "crates/pt_one/specs/Edges.antt"),
                ("`Runs` in `pt_one/specs/Edges.antt`", "Runs", "pt_one/specs/Edges.antt", "no file of specs/"),
                ("(`Before` and `IsFirst` in `Runs.antt`)", "Before", "Runs.antt", "crates/pt_one/specs/Tags.antt"),
                ("`IsFirst` (`Tags.antt`, `pt_one/specs/Edges.antt`)", "IsFirst", "Tags.antt or pt_one/specs/Edges.antt", "crates/pt_two/specs/Runs.antt"),
                ("(`IsFirst`,\n`Tags.antt`)", "IsFirst", "Tags.antt", "crates/pt_two/specs/Runs.antt"),
                ("**`Tags.antt`**, `IsFirst`", "IsFirst", "Tags.antt", "crates/pt_two/specs/Runs.antt"),
                ("`rows` in `pt_two/proofs/Rows.antt`", "rows", "pt_two/proofs/Rows.antt", "no file of specs/")]:
            with self.subTest(text=text):
                self.expect_line(f"docs/A.md says that {name} is in {files}: it is in {place}", A=f"It is {text}.\n")

    def test_statements(self) -> None:
        """A statement that no file defines."""
        self.expect_line("docs/A.md cites AreRuns, which no file of specs/ defines", A="`AreRuns`, `Is`, `Issue`, `IsRun`.\n")

    def test_project(self) -> None:
        """This project has no fault."""
        done = run([TOP / "tools/check-names.py"], TOP)
        self.assertEqual((done.status, done.output.splitlines()[:-1]), (0, []))


if __name__ == "__main__":
    main()
