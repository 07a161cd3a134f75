"""Reads what the program writes: tables, margins and slacks.

    >>> events_of("actuator,time,step,value\\nvalve,3500,0,1\\n")
    {'valve': [Event(time=3500, step=0, value=1)]}
"""
from __future__ import annotations

from typing import Optional

from ptides.records import Event, Margin, Rows, Slack


def parts_of(output: str) -> tuple[str, str]:
    """The tables and the log, without its first line, of what `run` wrote; the log is empty if there is none."""
    tables, _, log = output.partition("\nlog\n") if not output.startswith("log\n") else ("", "", output[4:])
    return tables.rstrip("\n") + "\n", log


def events_of(tables: str) -> dict[str, list[Event]]:
    """The events of each actuator that has one, in the order of the tables."""
    found: dict[str, list[Event]] = {}
    for line in tables.splitlines()[1:]:
        name, time, step, value = line.split(",")
        found.setdefault(name, []).append(Event(int(time), int(step), int(value)))
    return found


def number(text: str) -> Optional[int]:
    """A number, or `None` for `-`."""
    return None if text == "-" else int(text)


def margins_of(output: str) -> Rows[Margin]:
    """What `check` wrote."""
    lines = (line.split(",") for line in output.splitlines()[1:])
    return Rows(Margin, (Margin(name, number(offset), number(margin)) for name, offset, margin in lines))


def slacks_of(output: str) -> Rows[Slack]:
    """What `slacks` wrote."""
    lines = (line.split(",") for line in output.splitlines()[1:])
    return Rows(Slack, (Slack(name, int(slack)) for name, slack in lines))
