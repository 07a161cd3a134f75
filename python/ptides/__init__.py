"""Runs PTIDES programs, graphs of actors that react to timestamped events in timestamp order, by the program `ptides`.

    import ptides

    result = ptides.run("graph.json", pedal=series)
    result["brake"], result.misses, result.rooms

docs/PYTHON.md has the whole. Everything is tested, and nothing of it is proved but the program that it runs.
"""
from importlib import import_module
from typing import TYPE_CHECKING, Any

if TYPE_CHECKING:
    from ptides.commands import Growth, Offset, Remark, Timing, audit, check, lint, meaning, replay, report, run, slacks, timing
    from ptides.logs import Entry
    from ptides.misses import Miss
    from ptides.program import Fault, NoProgram, Refused
    from ptides.results import Result, Verdict
    from ptides.recorded import Recorded, rows
    from ptides.records import Event, Margin, Room, Rows, Slack

# Where each name is. A module is read when one of its names is first used, since a companion uses few of them.
PARTS = {
    "commands": ["Growth", "Offset", "Remark", "Timing", "audit", "check", "lint", "meaning", "replay", "report", "run", "slacks", "timing"],
    "logs": ["Entry"],
    "misses": ["Miss"],
    "program": ["Fault", "NoProgram", "Refused"],
    "results": ["Result", "Verdict"],
    "recorded": ["Recorded", "rows"],
    "records": ["Event", "Margin", "Room", "Rows", "Slack"],
}
HOMES = {name: module for module, names in PARTS.items() for name in names}
__all__ = sorted(HOMES)


def __getattr__(name: str) -> Any:
    if name == "__version__":
        return import_module("ptides.program").version()
    if name not in HOMES:
        raise AttributeError(f"module 'ptides' has no attribute {name!r}")
    return getattr(import_module(f"ptides.{HOMES[name]}"), name)


def __dir__() -> list[str]:
    return sorted([*globals(), *__all__, "__version__"])
