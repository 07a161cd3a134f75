#!/usr/bin/env python3
"""Runs the commands of a page, one after the other, and compares what they write with what the page shows.

    console.py PAGE FOLDER        in FOLDER, which a page may leave with `cd`

A block `console` has lines `$ COMMAND`, each followed by its output, standard error included; a line `...` is for any lines. A
block `sh` is run and has to end with status 0; it is skipped if its last command isn't installed. A block `python` is run with the
first Python that has pandas, and skipped if there is none. The last line is `N passed, M failed, K skipped`.
"""
import re
import subprocess
import sys
from pathlib import Path
from typing import Iterator, List, Optional, Tuple

Step = Tuple[str, str, Optional[List[str]]]


def steps(text: str) -> Iterator[Step]:
    """What to run: its kind, its text, and the lines that it should write."""
    for kind, body in re.findall(r"^```(console|sh|python)\n(.*?)^```$", text, re.MULTILINE | re.DOTALL):
        if kind != "console":
            yield kind, body, None
            continue
        for part in re.split(r"^\$ ", body, flags=re.MULTILINE)[1:]:
            command, *lines = part.split("\n")[:-1]
            yield kind, command, lines


def python() -> Optional[str]:
    """A Python with pandas."""
    for each in (sys.executable, "/usr/bin/python3"):
        if Path(each).exists() and subprocess.run([each, "-c", "import pandas"], capture_output=True).returncode == 0:
            return each
    return None


def agrees(wanted: List[str], found: str) -> bool:
    pattern = "".join("(?:.*\n)*?" if line == "..." else re.escape(line) + "\n" for line in wanted)
    return re.fullmatch(pattern, found) is not None


def main() -> None:
    page, folder = sys.argv[1], Path(sys.argv[2]).resolve()
    passed = failed = skipped = 0
    where = folder / ".where"
    for kind, text, wanted in steps(Path(page).read_text(encoding="utf-8")):
        words = ["bash", "-c", f'{text}\nstatus=$?; pwd >"$0"; exit $status', str(where)]
        if kind == "python":
            words = [python() or "", "-c", text]
        if not words[0]:
            skipped += 1
            print(f"skipped: {page}: a block of Python, since there is no pandas")
            continue
        place = Path(where.read_text().rstrip("\n")) if where.exists() else folder
        done = subprocess.run(words, cwd=place, stdin=subprocess.DEVNULL, stdout=subprocess.PIPE, stderr=subprocess.STDOUT, text=True)
        if kind == "sh" and done.returncode == 127:
            skipped += 1
            print(f"skipped: {page}: {text.strip()}, since it is not installed")
        elif done.returncode == 0 if wanted is None else agrees(wanted, done.stdout):
            passed += 1
        else:
            failed += 1
            print(f"failed: {page}: {text.strip()} writes", *done.stdout.splitlines()[:20], sep="\n    ")
    where.unlink(missing_ok=True)
    print(f"{passed} passed, {failed} failed, {skipped} skipped")


main()
