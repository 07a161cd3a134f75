"""Calls the companions of the program, as `ptides explain` and `ptides timing`."""
from __future__ import annotations

import os
import re
import subprocess
import sys
from functools import lru_cache
from pathlib import Path
from typing import Optional, Union

from ptides import program
from ptides.program import Done, NoProgram


@lru_cache(maxsize=None)
def program_itself(found: str) -> str:
    """The program that a launcher runs: a companion asks it many times."""
    launcher = Path(found).resolve()
    installed = launcher.parent / "program"
    if (launcher.parent / "files").is_file() and program.is_program(installed):
        return str(installed)
    line = re.search(r"^program (\S+),", program.run(["--version"], program=found).output, re.MULTILINE)
    built = launcher.parent / line[1] if line else launcher
    return str(built) if program.is_program(built) else found


def call(name: str, *words: Union[str, Path], folder: Optional[Path] = None, given: Optional[bytes] = None) -> Done:
    """How the companion of this name ends, run by this Python."""
    script = program.HOME / "tools" / f"ptides-{name}"
    if not script.is_file():
        raise NoProgram(f"there is no companion {script}")
    around = {**os.environ, "PTIDES": program_itself(program.find_program())}
    source = {"stdin": subprocess.DEVNULL} if given is None else {"input": given}
    done = subprocess.run([sys.executable, str(script), *map(str, words)], cwd=folder, env=around, capture_output=True, check=False, **source)
    return Done(done.returncode, done.stdout.decode("utf-8", "surrogateescape"), done.stderr.decode("utf-8", "surrogateescape"))
