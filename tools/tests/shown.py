"""What the checks of `ptides wave` share: a folder of their own, long runs in it, and the records of a table."""
from __future__ import annotations

import csv
import io
import json
import shutil
import tempfile
from pathlib import Path

from counted import Case, Done, companion

SVG = "{http://www.w3.org/2000/svg}"


def records(text: str) -> list[dict[str, str]]:
    """The records of a table."""
    return list(csv.DictReader(io.StringIO(text)))


class WaveCase(Case):
    """Waves, in a folder of their own."""

    def setUp(self) -> None:
        self.folder = Path(tempfile.mkdtemp())
        self.addCleanup(shutil.rmtree, self.folder)

    def wave(self, *words: str, folder: Path) -> Done:
        """Runs `wave` in a folder."""
        return companion("wave", *words, folder=folder)

    def long_run(self, count: int, bound: int = 9, slack: int = 20, misses: bool = False, start: int = 0) -> Path:
        """A graph of a sensor with that many rows, each 1 ms after the one before, an actor between, and an actuator."""
        actors = [{"name": "level", "platform": "tank", "kind": "sensor", "file": "level.csv", "bound": bound},
                  {"name": "by", "platform": "tank", "kind": "shift", "by": 1},
                  {"name": "valve", "platform": "tank", "kind": "actuator", "slack": 2 if misses else slack}]
        graph = {"ptides": 1, "until": 10**12, "clock_error": 0, "platforms": ["tank"], "actors": actors,
                 "wires": [["level", 0, "by", 0], ["by", 0, "valve", 0]], "links": []}
        (self.folder / "graph.json").write_text(json.dumps(graph))
        rows = "".join(f"{start + number * 1000},{start + number * 1000 + 3},{number % 77}\n" for number in range(count))
        (self.folder / "level.csv").write_text("time,seen,value\n" + rows)
        return self.folder
