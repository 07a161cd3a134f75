#!/usr/bin/env python3
"""Checks tools/count-definitions.py on a small repository, counted by hand."""
from __future__ import annotations

import shutil
import sys
import tempfile
from pathlib import Path

from counted import Case, main, run

COUNT = Path(__file__).resolve().parent.parent / "count-definitions.py"
# Of the clause: Holds, both, ◌~◌ and its equations, Shape, small, twice. Never: other, and `left`, a field that hides an import.
FILES = {
    "crates/low/specs/Base.antt": """-- words of a lower crate
use Rattle.std.specs.Prelude.{ℕ}

-- small numbers
abbrev pub small : ℕ → Bool
small n = nat_lt n 3 -- below three

abbrev pub other : ℕ → Bool
other n = small n

abbrev pub left : ℕ
left = 4

pub data Shape : Type 0 where
  flat : Shape
  round : (n : ℕ) → Shape

unfoldable pub twice : ℕ → ℕ
twice n = n + n
""",
    "crates/low/specs/Again.antt": "pub use Rattle.low.specs.Base.{twice as double}\n",
    "crates/top/specs/Top.antt": """use Rattle.low.specs.Base.{Shape, left, small}
use Rattle.low.specs.Again.{double}

abbrev pub ◌~◌ : Shape → Shape → Bool
flat ~ flat = true
a ~ b =
    small (double 1)

abbrev both : Shape → Bool
both s = s ~ s

-- what holds
pub record Holds (s : Shape) : Type 0 where
  pub left : IsTrue (both s)
  pub right : left ≡ left
""",
    "crates/top/src/top.rt": """ghost use Rattle.top.specs.Top.{Holds};

fn call() -> u8
    ensures right { { Holds result } }
    ensures nothing { result ≡ 1 }
""",
    "docs/PROOF-TOUR.md": """# A tour

| Counted from | What it says | Definitions | Lines |
|---|---|---:|---:|
| `crates/top/src/top.rt right` | what holds | 6 | 16 |
| `crates/top/src/top.rt right --without both` | a part | 1 | 1,003 |
""",
}


class Definitions(Case):
    """What is counted."""

    def setUp(self) -> None:
        self.top = Path(tempfile.mkdtemp())
        self.addCleanup(shutil.rmtree, self.top)
        for name, text in FILES.items():
            (self.top / name).parent.mkdir(parents=True, exist_ok=True)
            (self.top / name).write_text(text)
        (self.top / "tools").mkdir()
        shutil.copy(COUNT, self.top / "tools")

    def count(self, *words: str) -> tuple[int, str, str]:
        """The status, the output and the notes."""
        done = run([sys.executable, "tools/count-definitions.py", *words], self.top)
        return done.status, done.output, done.notes

    def test_counts(self) -> None:
        """Definitions and their lines, without comments and blank lines, each once."""
        cases = [(["crates/top/src/top.rt", "right"], "6 definitions in 16 lines\n"),
                 (["crates/top/src/top.rt", "right", "--without", "both"], "2 definitions in 6 lines\n"),
                 (["crates/top/src/top.rt", "right", "--without", "Shape", "--without", "twice"], "4 definitions in 11 lines\n"),
                 (["--from", "low.specs.Base.other"], "2 definitions in 4 lines\n"),
                 (["--from", "low.specs.Again.double", "--list"], "low.specs.Base: twice 2\n1 definition in 2 lines\n")]
        for words, wanted in cases:
            with self.subTest(words=words):
                self.assertEqual(self.count(*words), (0, wanted, ""))

    def test_refusals(self) -> None:
        """What isn't there is named."""
        cases = [(["crates/top/src/top.rt", "wrong"], "has no clause `wrong`"), (["crates/top/src/top.rt", "nothing"], "names no definition"),
                 (["crates/top/src/none.rt", "right"], "No such file"), (["--from", "low.specs.Base.none"], "there is no definition"),
                 (["crates/top/src/top.rt", "right", "--without", "other"], "nothing named `other`"), ([], "give a file and a clause")]
        for words, wanted in cases:
            with self.subTest(words=words):
                status, output, notes = self.count(*words)
                self.assertEqual((status, output), (2, ""))
                self.assertIn(wanted, notes)

    def test_numbers_of_the_tour(self) -> None:
        """A wrong row is reported, and written anew."""
        wrong = "docs/PROOF-TOUR.md: `crates/top/src/top.rt right --without both` has 2 definitions in 6 lines, and not 1 in 1,003\n"
        self.assertEqual(self.count("--check"), (1, wrong, ""))
        self.assertEqual(self.count("--update"), (0, "", ""))
        self.assertEqual(self.count("--check"), (0, "", ""))
        tour = (self.top / "docs" / "PROOF-TOUR.md").read_text()
        self.assertEqual(tour, FILES["docs/PROOF-TOUR.md"].replace("| 1 | 1,003 |", "| 2 | 6 |"))


if __name__ == "__main__":
    main()
