"""What a report was made of: files with their digests, the version of the program, and the picture of the graph."""
from __future__ import annotations

import hashlib
import os
import shutil
import subprocess
from pathlib import Path
from typing import Iterator

from ptides import companions, program
from ptides.program import Fault
from ptides.reporting.gathered import File, Gathered

# How long Graphviz may take for the picture, in seconds.
LONGEST = 60


def files_of(found: Gathered) -> Iterator[File]:
    """The files that were read, by the names that the user gave them."""
    asked = found.asked
    yield file_of(asked.graph_name, asked.graph)
    if asked.air is not None:
        yield file_of(asked.air_name or str(asked.air), asked.air)
    if asked.blocks:
        yield file_of(asked.blocks.name, Path(asked.blocks.path))
    for actor in found.graph["actors"]:
        if actor["kind"] == "sensor":
            yield file_of(f"{asked.rows_names.get(actor['name'], actor['file'])} ({actor['name']})", asked.folder / actor["file"])


def file_of(name: str, path: Path) -> File:
    """A file that was read."""
    try:
        data = path.read_bytes()
    except OSError as fault:
        raise Fault(f"cannot read {path}: {fault.strerror}") from fault
    return File(name, len(data), hashlib.sha256(data).hexdigest())


def versions() -> list[str]:
    """The version of the program, and the digest of its file."""
    asked, launcher = program.find_program(), program.HOME / "ptides"
    file = companions.program_itself(asked)
    known = program.is_program(launcher) and file == companions.program_itself(str(launcher))
    lines = program.run(["--version"], program=str(launcher)).output.splitlines() if known else [f"ptides of an unknown version, {asked}"]
    return [*lines, f"SHA-256 of the program {hashlib.sha256(Path(file).read_bytes()).hexdigest()}"]


def picture(graph: Path, blocks: list[str]) -> tuple[str, str]:
    """The graph as SVG, or why there is none."""
    if not shutil.which("dot"):
        return "", "No picture of the graph: Graphviz isn't installed (Debian: apt-get install graphviz)."
    text = companions.call("dot", os.path.abspath(graph), *blocks).output
    try:
        done = subprocess.run(["dot", "-Tsvg"], input=text, capture_output=True, text=True, timeout=LONGEST, check=False)
    except subprocess.TimeoutExpired:
        return "", f"No picture of the graph: Graphviz had no picture within {LONGEST} seconds."
    start = done.stdout.find("<svg")
    return (done.stdout[start:], "") if start >= 0 else ("", f"No picture of the graph: {done.stderr.strip() or 'Graphviz gave none'}")
