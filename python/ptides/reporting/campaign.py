"""The report of scenarios: all of them on one page, each with its verdict and its trends."""
from __future__ import annotations

import os
from concurrent.futures import ThreadPoolExecutor
from dataclasses import dataclass
from html import escape
from pathlib import Path
from typing import Any, Callable, Iterable, Mapping, Optional

from ptides import limits
from ptides.companions import program_itself
from ptides.formulas.option import BlocksFile
from ptides.program import Fault, Refused, find_program
from ptides.reporting.elements import marked, section, table, tag
from ptides.reporting.gather import add_graph, gather
from ptides.reporting.gathered import Asked, Gathered
from ptides.reporting.page import (MISSED_BY, MOST_DATA, Wall, data, deadlines_part, document, files_table, graph_part, made_by, missed_by, missed_part,
                                   network_part, timing_part, trends_part, verdict)
from ptides.reporting.sources import versions
from ptides.reporting.stamps import Zero
from ptides.scenarios import Outcome, Scenario, run_here, scenarios_of, word_meanings

# The zero of a graph whose sensor files are in a folder.
ZeroOf = Callable[[Mapping[str, Any], Path], Optional[Zero]]
# How long a command of a scenario may take, in seconds.
LONGEST = 600.0
NOTHING = "<p>Nothing was missed, late or refused.</p>"
# How many scenarios that failed are open at first.
MOST_OPEN = 3


@dataclass
class Tried:
    """A scenario, whether it gave what is stored, and what happened in it; `refused` is why there is nothing to show."""

    key: str
    name: str
    scenario: Scenario
    outcome: Outcome
    found: Optional[Gathered] = None
    refused: str = ""

    def zero(self, zero_of: ZeroOf) -> Optional[Zero]:
        """The zero of its times."""
        return zero_of(self.found.graph, self.scenario.folder) if self.found else None

    @property
    def line(self) -> str:
        """The line with which the program ended the run, if it did."""
        if self.found:
            return self.found.refused.line if self.found.refused else ""
        return self.outcome.files.get("expected.notes", "").split("\n", 1)[0]

    @property
    def word(self) -> str:
        """The verdict."""
        return '<span class="failed">failed</span>' if self.outcome.message() else '<span class="ok">ok</span>'


def asked_of(scenario: Scenario) -> Asked:
    """The run that a scenario asks for."""
    words = word_meanings(scenario.words)
    if words.command not in ("run", "replay"):
        raise Fault(f"`{words.command}` is no run, and has no trends")
    graph, air = (plain_path(scenario.folder / word) for word in (words.graph, words.other))
    return Asked(graph, air if words.command == "replay" else None, words.clock, scenario.folder, claims=limits.claims_of(words.claims), blocks=blocks_of(scenario, words.blocks))


def blocks_of(scenario: Scenario, path: Optional[str]) -> Optional[BlocksFile]:
    """The file of formulas that a scenario names."""
    return BlocksFile(str(plain_path(scenario.folder / path)), path) if path else None


def plain_path(path: Path) -> Path:
    """The path without `..`, if that is the same file."""
    plain = Path(os.path.normpath(path))
    return plain if os.path.realpath(plain) == os.path.realpath(path) else path


def names_of(scenarios: list[Scenario]) -> list[str]:
    """The folders of scenarios, as seen from the one that all are in."""
    folders = [os.path.abspath(scenario.folder) for scenario in scenarios]
    common = os.path.commonpath(folders) if len(folders) > 1 else os.path.dirname(folders[0])
    return [os.path.basename(folder) if folder == common else os.path.relpath(folder, common) for folder in folders]


def tried(number: int, name: str, scenario: Scenario, outcome: Outcome) -> Tried:
    """Collects what happened in a scenario."""
    made = Tried(f"s{number}", name, scenario, outcome)
    try:
        made.found = gather(asked_of(scenario), whole=False)
    except Refused as refused:
        made.refused = refused.explanation or refused.line
    except Fault as fault:
        made.refused = str(fault)
    return made


def all_tried(folders: Iterable[str], claims: int, blocks: Optional[BlocksFile]) -> list[Tried]:
    """Runs all scenarios of these folders."""
    scenarios = scenarios_of(folders, claims, blocks)
    jobs = os.cpu_count() or 1
    outcomes = run_here(scenarios, program_itself(find_program()), jobs, LONGEST)
    with ThreadPoolExecutor(jobs) as pool:
        return list(pool.map(tried, range(len(scenarios)), names_of(scenarios), scenarios, outcomes))


def summary(all_of_them: list[Tried]) -> str:
    """A line for each scenario."""
    rows = []
    for each in all_of_them:
        link = f'<a href="#{each.key}">{escape(each.name)}</a>'
        found = each.found
        rooms = [min(signal.values) for signal in found.signals if signal.group == "rooms"] if found else []
        acted = sum(len(signal.times) for signal in found.signals if signal.kind == "actuator") if found else None
        status = found.status if found else each.outcome.files.get("status", "").strip() or None
        missed, least = len(found.result.misses) if found else None, min(rooms, default=None)
        numbers = (status, acted, marked(missed, missed), marked(least, (least or 0) < 0))
        rows.append((link, each.word, *numbers, each.outcome.message()))
    head = ("scenario", "verdict", "status", "events of actuators", "missed", "least room, us", "what differs")
    return table(head, rows, (2, 3, 4, 5))


def missed_and_late(all_of_them: list[Tried], zero_of: ZeroOf) -> str:
    """What was missed in each scenario, and which were ended by a line of the program."""
    missed_rows, ended_rows = [], []
    for each in all_of_them:
        link = f'<a href="#{each.key}">{escape(each.name)}</a>'
        missed_rows += [(link, *record) for record in (missed_by(each.found, Wall(each.zero(zero_of))) if each.found else [])]
        ended_rows += [(link, f"<code>{escape(each.line)}</code>")] if each.line else []
    parts = table(("scenario", *MISSED_BY), missed_rows, (2, 3, 4)) if missed_rows else ""
    return parts + (table(("scenario", "ended with"), ended_rows) if ended_rows else "")


def differs(each: Tried) -> str:
    """What differs from what is stored, with a way to its place."""
    message = each.outcome.message()
    if not message:
        return '<p><span class="ok">ok</span>: it gave what is stored.</p>'
    difference = each.outcome.difference
    button = ""
    if difference and difference.time is not None and each.found:
        actor = (difference.expected or difference.found or "").split(",")[0]
        button = f' <button type="button" data-time="{difference.time}" data-by="0" data-actor="{escape(actor)}">show</button>'
    return f'<div class="verdict bad"><strong>It didn\'t give what is stored.</strong> <code>{escape(message)}</code>{button}</div>'


def details(each: Tried, zero_of: ZeroOf, most: int, is_open: bool) -> str:
    """What can be opened of a scenario."""
    content, script = differs(each), ""
    zero = each.zero(zero_of)
    wall = Wall(zero)
    if each.refused:
        content += tag("pre", escape(each.refused))
    if each.found:
        found = each.found
        parts = [("Trends", trends_part(found)), ("Missed", missed_part(found, wall)), ("Deadlines", deadlines_part(found)), ("Network", network_part(found))]
        content += verdict(found) + "".join(f"<h3>{title}</h3>{part}" for title, part in parts if part)
        content += tag("details", "<summary>files</summary>" + files_table(found))
        script, _ = data(found.signals, zero, each.key, most)
    summary_line = f"<summary><strong>{escape(each.name)}</strong> {each.word}</summary>"
    attributes = {"id": each.key, **({"data_key": each.key} if each.found else {}), **({"open": "open"} if is_open else {})}
    return tag("details", summary_line + content, **attributes) + script


def of_the_graph(all_of_them: list[Tried]) -> str:
    """The graph, if all scenarios have the same one."""
    found = [each.found for each in all_of_them if each.found]
    if not found or len({os.path.realpath(each.asked.graph) for each in found}) > 1:
        return ""
    add_graph(found[0])
    return section("graph", "Graph", graph_part(found[0])) + section("timing", "What may grow", timing_part(found[0]))


def campaign_page(folders: list[str], title: str, zero_of: ZeroOf, claims: int, blocks: Optional[BlocksFile] = None) -> tuple[str, int, list[Gathered]]:
    """The page of all scenarios, 1 if one of them didn't give what is stored, and the runs."""
    all_of_them = all_tried(folders, claims, blocks)
    failed = [each for each in all_of_them if each.outcome.message()]
    text = f"{len(all_of_them) - len(failed)} of {len(all_of_them)} scenarios gave what is stored"
    head = f'<header><h1>{escape(title)}</h1><div class="verdict{" bad" if failed else ""}"><strong>{text}.</strong></div></header>'
    most = MOST_DATA // max(len(all_of_them), 1)
    opened = {each.key for each in failed[:MOST_OPEN]}
    body = "".join(details(each, zero_of, most, each.key in opened) for each in all_of_them)
    parts = section("summary", "All scenarios", summary(all_of_them)) + section("missed", "Missed, late or refused", missed_and_late(all_of_them, zero_of) or NOTHING)
    parts += section("each", "Each", body) + of_the_graph(all_of_them)
    named = ["--blocks", blocks.name] if blocks else []
    parts += section("what", "What was run", tag("pre", escape("\n".join([" ".join(["$ ptides bench", *folders, *limits.words_of(claims), *named]), "", *versions()]))) + made_by())
    return document(title, tag("main", head + parts)), int(bool(failed)), [each.found for each in all_of_them if each.found]


def are_folders(words: list[str]) -> bool:
    """Whether all words are folders, of scenarios."""
    return all(word and Path(word).is_dir() for word in words)
