"""The reports of scenarios: TAP, and the XML of JUnit."""
from __future__ import annotations

import json
import re
from pathlib import Path
from typing import Any
from xml.sax.saxutils import escape, quoteattr

from ptides import misses
from ptides.scenarios import Outcome, Scenario


def missed_of(outcome: Outcome) -> str:
    """The summary of the misses in what a scenario gave, if there are many."""
    return misses.note(outcome.files.get("expected.notes", "")).rstrip("\n")


def tap_of(number: int, scenario: Scenario, outcome: Outcome) -> str:
    """The lines of TAP for one scenario; the values in it are JSON, which YAML reads."""
    name = scenario.name.replace("#", "\\#").replace("\n", "\\n")
    if not outcome.message():
        return f"ok {number} - {name}\n"
    many = missed_of(outcome)
    # What sums up comes before the first of many lines.
    parts: dict[str, Any] = {**({"missed": many} if many else {}), "message": outcome.message()}
    if outcome.error:
        parts["severity"] = "error"
    else:
        found = outcome.difference
        parts.update({"file": found.file, "line": found.line, "expected": found.expected, "found": found.found})
    return f"not ok {number} - {name}\n  ---\n" + "".join(f"  {key}: {json.dumps(value)}\n" for key, value in parts.items()) + "  ...\n"


def plain(text: str) -> str:
    """The text without what XML cannot hold."""
    return re.sub("[^\t\n\r\u0020-\ud7ff\ue000-\ufffd\U00010000-\U0010ffff]", "?", text)


def junit_of(done: list[tuple[Scenario, Outcome]]) -> str:
    """The outcomes as JUnit's XML: what differs is a failure, and what is no answer of the program an error."""
    failed = sum(outcome.difference is not None for _, outcome in done)
    errors = sum(bool(outcome.error) for _, outcome in done)
    seconds = sum(outcome.seconds for _, outcome in done)
    head = f'name="ptides" tests="{len(done)}" failures="{failed}" errors="{errors}" time="{seconds:.3f}"'
    lines = ['<?xml version="1.0" encoding="UTF-8"?>', f"<testsuites {head}>", f'<testsuite {head} skipped="0">']
    for scenario, outcome in done:
        path = Path(scenario.name)
        # `.` has no last part.
        name = path.name or scenario.name
        case = f"<testcase classname={quoteattr(plain(str(path.parent)))} name={quoteattr(plain(name))} time=\"{outcome.seconds:.3f}\""
        if outcome.message():
            kind, first = "error" if outcome.error else "failure", [missed_of(outcome)] if missed_of(outcome) else []
            message = plain("; ".join([*first, outcome.message()]))
            notes = plain("\n".join([*first, outcome.files.get("expected.notes", "")]))
            lines.append(f"{case}><{kind} message={quoteattr(message)}>{escape(message)}</{kind}>")
            lines.append(f"<system-err>{escape(notes)}</system-err></testcase>")
        else:
            lines.append(case + "/>")
    return "\n".join([*lines, "</testsuite>", "</testsuites>"]) + "\n"
