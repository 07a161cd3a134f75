"""What the checks of the companions share: the files, a way to run a companion, and a last line that counts."""
from __future__ import annotations

import os
import shutil
import subprocess
import sys
import unittest
from pathlib import Path
from typing import Any, NamedTuple, Optional

TOP = Path(__file__).resolve().parent.parent.parent
EXAMPLES = TOP / "examples"
GRAPHS = sorted(path.parent for pattern in ("*/graph.json", "idioms/*/graph.json") for path in EXAMPLES.glob(pattern))
REFUSED = sorted(path.parent for path in EXAMPLES.glob("refused/*/status"))


class Done(NamedTuple):
    """How a command ended."""
    status: int
    output: str
    notes: str


def run(command: list[Any], folder: Path, given: Optional[str] = None) -> Done:
    """Runs a command in a folder."""
    source: dict[str, Any] = {"stdin": subprocess.DEVNULL} if given is None else {"input": given}
    done = subprocess.run([str(word) for word in command], cwd=folder, capture_output=True, text=True, check=False, **source)
    return Done(done.returncode, done.stdout, done.stderr)


def ptides(*words: Any, folder: Path, given: Optional[str] = None) -> Done:
    """Runs the program."""
    return run([os.environ.get("PTIDES") or TOP / "ptides", *words], folder, given)


def companion(name: str, *words: Any, folder: Path, given: Optional[str] = None) -> Done:
    """Runs a companion, without the packages of this machine, since it needs none."""
    return run([sys.executable, "-S", TOP / "tools" / f"ptides-{name}", *words], folder, given)


def example_words(folder: Path) -> list[str]:
    """The words with which an example is run."""
    return (folder / "words").read_text().splitlines() if (folder / "words").exists() else ["run", "graph.json"]


def blocks_of(folder: Path) -> list[str]:
    """`--blocks FILE`, if the words of an example have it; the path is one from any folder."""
    words = example_words(folder)
    return ["--blocks", str(folder / words[words.index("--blocks") + 1])] if "--blocks" in words else []


def blocks_in(folder: Path) -> Optional[str]:
    """The file of formulas of an example, if it has one."""
    return "".join(blocks_of(folder)[1:]) or None


def copied(folder: Path, target: Path) -> Path:
    """A copy of the files of a folder that can be written to, whatever the rights of the folder."""
    target.mkdir(exist_ok=True)
    for file in folder.iterdir():
        (target / file.name).write_bytes(file.read_bytes())
    return target


def make_files(folder: Path) -> None:
    """Runs the script of an example that writes files too large to be stored."""
    if (folder / "make.py").exists():
        subprocess.run([sys.executable, "make.py"], cwd=folder, check=True)


class Case(unittest.TestCase):
    """A check with what companions have in common."""

    def need(self, tool: str) -> None:
        """Skips, if a real tool isn't installed."""
        if not shutil.which(tool):
            self.skipTest(f"{tool} isn't there")

    def refuses_bad_input(self, name: str) -> None:
        """Bad words and files give one line and status 1; -h gives an example and status 0."""
        for words in ([], ["--no-such-option"], ["no_such_file"]):
            done = companion(name, *words, folder=EXAMPLES / "basic")
            with self.subTest(words=words):
                self.assertEqual((done.status, done.output, done.notes.count("\n")), (1, "", 1))
        done = companion(name, "-h", folder=EXAMPLES / "basic")
        self.assertEqual(done.status, 0)
        self.assertIn(f"  ptides {name} ", done.output)

    def passes_refusals_on(self, name: str) -> None:
        """A refused graph gives the line and the status of the program."""
        for fault in ("not_json", "member", "unfed", "cycle"):
            folder = EXAMPLES / "refused" / fault
            done = companion(name, "graph.json", folder=folder)
            with self.subTest(fault=fault):
                self.assertEqual((done.status, done.notes), (2, (folder / "expected.notes").read_text()))


class Counter(unittest.TextTestResult):
    """Counts what passed, failed and was skipped: the parts of a test, or the test if it has none."""

    def __init__(self, *words: Any, **options: Any) -> None:
        super().__init__(*words, **options)
        self.passed = 0
        self.parts: set[str] = set()

    def addSubTest(self, test: Any, subtest: Any, err: Any) -> None:
        super().addSubTest(test, subtest, err)
        self.parts.add(test.id())
        self.passed += err is None

    def addSuccess(self, test: Any) -> None:
        super().addSuccess(test)
        self.passed += test.id() not in self.parts


def main() -> None:
    """Runs the checks of the script that calls this. The last line is `N passed, M failed, K skipped`."""
    runner = unittest.TextTestRunner(stream=sys.stdout, resultclass=Counter, verbosity=0)
    result = unittest.main(module="__main__", exit=False, testRunner=runner).result
    failed = len(result.failures) + len(result.errors)
    for test, reason in result.skipped:
        print(f"skipped: {test}: {reason}")
    print(f"{result.passed} passed, {failed} failed, {len(result.skipped)} skipped")
    sys.exit(failed > 0)
