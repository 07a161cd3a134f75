#!/usr/bin/env python3
"""Checks tools/check-clauses.py on a small project: clauses that are elsewhere in the crate, and rows that say too much or too little."""
from __future__ import annotations

import tempfile
from pathlib import Path

from counted import TOP, Case, Done, main, run

SOURCES = {
    "crates/pt_one/src/tags.rt": """//! Tags. fn nothing() ensures no { }
use std::Wait;

/// A tag.
pub struct Tag { time: fn(u64) -> u64, step: [u8; 4] }

pub trait Early {
    ghost told: { Self → ℕ };

    fn read(&mut self, bytes: [u8; 4]) -> u64
        ensures told { told self.new ≡ (λ t'. { t' }) result };
}

impl<'a, R: Wait> Early for Tag<'a, R> {
    fn read(&mut self, bytes: [u8; 4]) -> u64 { 0 }
}

impl Tag {
    pub fn new() -> Tag
        ensures { result ≡ { "}" } }
    { let end = '{'; Tag { } }

    pub fn time(&self) -> u64
        ensures { result ≡ self.now.time }
    { self.time }

    pub fn parts(&self) -> (u64, u32)
        ensures time { result.0 ≡ self.now.time }
        ensures step { result.1 ≡ self.now.step }
    { }

    fn hidden(&self)
        ensures unseen { Unit {0} }
    { }
}
""",
    "crates/pt_one/src/runs.rt": """pub fn start<R: Wait>(rt: &R, most: usize) -> u64
    ghost basis: { ℕ }
    requires most { 1 ≤ most }
    ensures ran { result ≡ { 0 } }
{
    fn inner() ensures inner { } { }
}

pub fn stop()
    ensures { Stops }
{ 0 }

pub fn runs_end()
    ensures { RunsEnd }
{}

pub fn runs_agree()
    ensures { RunsAgree }
{}
""",
    "crates/pt_two/src/lib.rt": """pub fn stop()
    ensures stopped { Stops }
{ }
""",
}
HEAD = "| Crate | Function | Clause | What it says |\n|---|---|---|---|\n"


class Clauses(Case):
    """A document of a small project."""

    def check(self, text: str) -> Done:
        """What the check says of a document."""
        with tempfile.TemporaryDirectory() as folder:
            for path, content in {**SOURCES, "docs/A.md": text}.items():
                file = Path(folder) / path
                file.parent.mkdir(parents=True, exist_ok=True)
                file.write_text(content, encoding="utf-8")
            return run([TOP / "tools/check-clauses.py", folder], TOP)

    def test_good(self) -> None:
        """Each form of a row, a sentence, and a block of code, which says nothing."""
        rows = ["| `pt_one` | `pt_one::start` | `most`, `ran` | x |",
                "| | | `ran` | x |",
                "| | `pt_one::stop`, `pt_one::Tag` | its one clause; `time`, `step` | x |",
                "| | `time` | 1 | x |",
                "| | `pt_one::Tag` | `told` | x |",
                "| | `pt_one::Early` | `told` | x |",
                "| | `pt_one::Tag` | `time`; 1 of each other question | x |",
                "| | `pt_one::Tag::new` | 1 | x |",
                "| `pt_one`, `pt_two` | `pt_one::stop`, `pt_two::stop` | 1; `stopped` | x |",
                "| `pt_one` | one theorem on ends, and `pt_one::runs_agree` | its one clause | x |",
                "| | two theorems | its one clause | x |"]
        text = f"Clause\n`ran` of `pt_one::start`, clauses `time` and `step` of `pt_one::Tag`.\n```\nclause `no` of `pt_one::start`\n```\n{HEAD}"
        self.assertEqual(self.check(text + "\n".join(rows[:10])), Done(0, "20 passed, 0 failed\n", ""))
        self.assertEqual(self.check(HEAD + rows[0] + "\n" + rows[10]), Done(0, "5 passed, 0 failed\n", ""))

    def test_bad(self) -> None:
        """A row by itself, and the line that refuses it."""
        for row, line in [
                ("`pt_one::stop` | `ran`", "pt_one::stop has no clause ran"),
                ("`pt_one::start` | `inner`", "pt_one::start has no clause inner"),
                ("`pt_one::start` | 1", "pt_one::start should have one clause without a name, and has ran"),
                ("`pt_one::Tag` | `unseen`", "pt_one::Tag has no clause unseen"),
                ("`pt_one::Tag` | `time`, `ran`", "pt_one::Tag has no clause ran"),
                ("`pt_one::Tag` | 1 of each question", "pt_one::Tag::parts should have one clause without a name, and has time, step"),
                ("`pt_one::Tag` | its one clause", "pt_one::Tag can't have the clauses 'its one clause'"),
                ("`pt_one::stop` | 1 or 2 each", "pt_one::stop can't have the clauses '1 or 2 each'"),
                ("`pt_one::stop`, `pt_one::start` | `ran`; 1", "pt_one::stop has no clause ran"),
                ("`pt_one::stop`, `pt_one::start`, `pt_one::Tag` | 1; `ran`", "2 lists of clauses for 3 names"),
                ("`pt_one::none` | 1", "pt_one::none isn't there, or more than once"),
                ("`hidden` | `unseen`", "pt_one::hidden isn't there, or more than once"),
                ("`pt_two::stop` | `stopped`", "pt_two::stop isn't there, or more than once"),
                ("three theorems | its one clause", "pt_one has 2 theorems that no row names, and not 3")]:
            with self.subTest(row=row):
                done = self.check(f"{HEAD}| `pt_one` | {row} | x |\n")
                self.assertEqual((done.status, done.notes, done.output.splitlines()[0]), (1, "", f"failed: docs/A.md:3: {line}"))

    def test_sentences(self) -> None:
        """A clause of another function."""
        done = self.check("It is\nclauses `ran` and `most` of `pt_one::stop`.\n")
        self.assertEqual(done.output, "failed: docs/A.md: pt_one::stop has no clause ran\n"
                                      "failed: docs/A.md: pt_one::stop has no clause most\n0 passed, 2 failed\n")

    def test_project(self) -> None:
        """This project has no fault."""
        done = run([TOP / "tools/check-clauses.py"], TOP)
        self.assertEqual((done.status, done.output.splitlines()[:-1]), (0, []))


if __name__ == "__main__":
    main()
