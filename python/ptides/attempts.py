"""Runs the commands of a scenario, here or on the worker of a cluster.

A worker need not have this package: these functions are sent to it. So they use nothing but the standard library and each other.
"""
from __future__ import annotations

import signal
import subprocess
import tempfile
import time
from pathlib import Path
from typing import Optional

# What a command left: its status, its standard output and its standard error. A plain tuple, since it comes from workers too. If the
# program gave no answer the status is None, and the last text says why.
Result = tuple[Optional[int], str, str]


def attempt(program: str, folder: str, words: list[str], seconds: float) -> Result:
    """Runs one command in a folder."""
    try:
        done = subprocess.run([program, *words], cwd=folder, stdin=subprocess.DEVNULL, capture_output=True, timeout=seconds)
    except subprocess.TimeoutExpired:
        return None, "", f"no end within {seconds:g} seconds\n"
    except OSError as fault:
        return None, "", f"cannot run {program} in {folder}: {fault.strerror}\n"
    output, notes = (text.decode("utf-8", "surrogateescape") for text in (done.stdout, done.stderr))
    if done.returncode < 0:
        return None, output, f"the program was ended by signal {-done.returncode} ({signal.strsignal(-done.returncode)})\n"
    return done.returncode, output, notes


def attempts(program: str, folder: str, commands: list[list[str]], seconds: float) -> tuple[list[Result], float]:
    """Runs the commands of a scenario; also how long they took."""
    begun = time.monotonic()
    results = [attempt(program, folder, words, seconds) for words in commands]
    return results, time.monotonic() - begun


def attempts_there(program: str, files: dict[str, bytes], place: str, commands: list[list[str]], seconds: float) -> tuple[list[Result], float]:
    """On a worker: unpacks a scenario into a folder of its own and runs its commands."""
    with tempfile.TemporaryDirectory(prefix="ptides-bench-") as folder:
        for path, data in files.items():
            target = Path(folder, path)
            target.parent.mkdir(parents=True, exist_ok=True)
            target.write_bytes(data)
        inside = Path(folder, place)
        inside.mkdir(parents=True, exist_ok=True)
        return attempts(program, str(inside), commands, seconds)
