"""Writes the page of a report: HTML with all that it needs, so that it can be read anywhere and years later."""
from __future__ import annotations

import json
import re
from datetime import datetime, timezone
from html import escape
from importlib.resources import files as files_of
from os import environ
from pathlib import Path
from typing import Any, Optional

from ptides.misses import Miss
from ptides.program import Fault, version
from ptides.reporting.elements import marked, section, table, tag
from ptides.reporting.gathered import Gathered
from ptides.reporting.series import Signal, fitted
from ptides.reporting.stamps import Zero
from ptides.wall_time import zone_name

# Where Debian's libjs-dygraphs is, with its licence.
DYGRAPHS, LICENCE = "/usr/share/javascript/dygraphs", "/usr/share/doc/libjs-dygraphs/copyright"
# What a page may have of data, in bytes; with all else it is below 5 MB.
MOST_DATA = 4_200_000
# How many missed events are listed as text.
MOST_LISTED = 500
POLICY = "default-src 'none'; script-src 'unsafe-inline'; style-src 'unsafe-inline'; img-src data:"
PARTS = [("trends", "Trends"), ("missed", "Missed"), ("deadlines", "Deadlines"), ("network", "Network"), ("clocks", "Readings"), ("graph", "Graph"),
         ("timing", "What may grow"), ("what", "What was run")]


def library() -> tuple[str, str, str]:
    """Dygraphs: its program, its style and its licence."""
    folder = Path(environ.get("PTIDES_DYGRAPHS") or DYGRAPHS)
    try:
        script, style = ((folder / f"dygraph.min.{ending}").read_text(encoding="utf-8") for ending in ("js", "css"))
    except OSError as fault:
        raise Fault(f"a report needs dygraphs, and {fault.filename} isn't there (Debian: apt-get install libjs-dygraphs)") from fault
    for path in (folder / "LICENSE.txt", Path(LICENCE)):
        if path.is_file():
            return without_map(script), without_map(style), path.read_text(encoding="utf-8")
    raise Fault(f"a report has the licence of dygraphs in it, and {LICENCE} isn't there")


def without_map(text: str) -> str:
    """The text without the name of a source map, which a browser would look for."""
    return re.sub(r"(//|/\*)# sourceMappingURL=.*", "", text)


def own(name: str) -> str:
    """A file of this package."""
    return (files_of("ptides.reporting") / name).read_text(encoding="utf-8")


def data(signals: list[Signal], zero: Optional[Zero], key: str, most: int) -> tuple[str, int]:
    """The script element with the data of a run, and how many trends are outlines."""
    # A room that is always the same is in the table.
    signals = [signal for signal in signals if signal.group != "rooms" or len(set(signal.values)) > 1]
    text, outlines = fitted(signals, most)
    times = [time for signal in signals if signal.times for time in (signal.times[0], signal.times[-1])]
    first, last = min(times, default=0), max(times, default=1)
    room = max((last - first) // 50, 1)
    first, last = max(first - room, 0), last + room
    head = {"zero": {"utc": zero.utc, "offsets": zero.offsets(first, last)} if zero else None, "first": first, "last": last}
    coded = json.dumps(head, separators=(",", ":"))[:-1] + ',"signals":' + text + "}"
    return tag("script", coded.replace("<", "\\u003c"), type="application/json", id=f"data-{key}"), outlines


class Wall:
    """Times as the page writes them: of the clock on the wall, or in seconds from 0."""

    def __init__(self, zero: Optional[Zero]):
        self.zero = zero

    def text(self, time: int) -> str:
        """A time."""
        return f"{time / 1e6:.6f} s" if self.zero is None else self.zero.text_of(time)

    def about(self) -> str:
        """What times are, in a sentence."""
        if self.zero is None:
            return "Times are seconds from 0, the zero of the sensor files."
        zone = f"of the zone {zone_name(self.zero.zone)}" if self.zero.zone else "of a zone that isn't stated"
        return f"Times are those of a clock on the wall {zone}; the zero of the sensor files is {self.zero.text}."


# ---- the parts ----------------------------------------------------------------------------------------------------------


def verdict(found: Gathered) -> str:
    """How the run ended, first of all."""
    missed = len(found.result.misses)
    if found.refused:
        text = (f"<strong>Late.</strong> The run ended with status {found.status}: <code>{escape(found.refused.line)}</code>. "
                "What is shown are the values of the definition, which don't depend on what was late.")
        return tag("div", text, class_="verdict bad")
    if missed:
        actors = sorted({miss.actor for miss in found.result.misses})
        worst = max(found.result.misses, key=lambda miss: miss.late)
        text = (f'<strong>{missed:,} {"events were" if missed > 1 else "event was"} missed</strong>, by {escape(", ".join(actors))}; the worst by '
                f"{worst.late:,} us. <a href='#missed'>The list</a> has them. Status {found.status}.")
        return tag("div", text, class_="verdict bad")
    return tag("div", f"<strong>Nothing was missed.</strong> Status {found.status}.", class_="verdict")


def facts(found: Gathered, wall: Wall) -> str:
    """The graph in numbers."""
    graph, groups = found.graph, [signal for signal in found.signals if signal.group == "trends"]
    rows = sum(len(signal.times) for signal in groups if signal.kind == "sensor")
    acted = sum(len(signal.times) for signal in groups if signal.kind == "actuator")
    until = f"{wall.text(graph['until'])} ({graph['until']:,} us)"
    names = ", ".join(graph["platforms"])
    clock = "a recorded network" if found.asked.air else {"paced": "paced"}.get(found.asked.clock, found.asked.clock)
    records = [("platforms", f"{len(graph['platforms'])}: {names}"), ("actors", len(graph["actors"])), ("horizon", until), ("clock", clock),
               ("rows of sensors", rows), ("events of actuators", acted)]
    return table(("", ""), records).replace("<thead><tr><th></th><th></th></tr></thead>", "") + f'<p class="soft">{escape(wall.about())}</p>'


def trends_part(found: Gathered) -> str:
    """Where the trends are drawn."""
    keys = ('<p class="soft">A value holds until the next event; points are events. <span class="key">&#9660;</span> was missed, '
            '<span class="key late">&#9670;</span> came late. Zoom by dragging, by <kbd>+</kbd> and <kbd>-</kbd> or with <kbd>Ctrl</kbd> and '
            "the wheel; move with the arrow keys or by dragging with <kbd>Shift</kbd>; <kbd>Home</kbd> or a double click shows all; "
            "<kbd>n</kbd> and <kbd>p</kbd> go to the next event and the one before, of the trend that has the focus.</p>"
            "<noscript><p>The trends need JavaScript; the tables don't.</p></noscript>")
    notes = "".join(tag("p", escape(note), class_="soft") for note in found.notes)
    return keys + notes + '<div class="toolbar" data-part="toolbar"></div><div data-part="trends"></div>'


MISSED_BY = ("actor", "missed", "of events", "worst, us late", "first at")


def missed_by(found: Gathered, wall: Wall) -> list[tuple[Any, ...]]:
    """What each actor missed."""
    by_actor: dict[str, list[Miss]] = {}
    for miss in found.result.misses:
        by_actor.setdefault(miss.actor, []).append(miss)
    events = {signal.name: len(signal.times) for signal in found.signals if signal.group == "trends"}
    return [(name, len(mine), events.get(name, 0), max(miss.late for miss in mine), wall.text(min(miss.time for miss in mine)))
            for name, mine in by_actor.items()]


def missed_part(found: Gathered, wall: Wall) -> str:
    """What was missed or late, as text."""
    if found.refused:
        return tag("pre", escape(found.refused.explanation or found.refused.line))
    misses = found.result.misses
    if not misses:
        return ""
    head = table(MISSED_BY, missed_by(found, wall), (1, 2, 3))
    search = ('<p class="noprint"><label>find <input type="search" data-part="search" size="30" placeholder="part of a line"></label> '
              '<output data-part="found"></output></p>')
    shown = f'<p class="soft">The first {MOST_LISTED} of {len(misses):,}; the search finds the others.</p>' if len(misses) > MOST_LISTED else ""
    rows = [(miss.line, wall.text(miss.time), miss.late,
             f'<button type="button" data-time="{miss.time}" data-by="{miss.late}" data-actor="{miss.actor}">show</button>') for miss in misses[:MOST_LISTED]]
    return head + search + shown + table(("line", "time", "us late", ""), rows, (2,), ' data-part="misses"')


def deadlines_part(found: Gathered) -> str:
    """What was left until each deadline."""
    margins = {margin.actor: margin.margin for margin in found.margins}
    rows = []
    for signal in found.signals:
        if signal.group == "rooms":
            values = sorted(signal.values)
            least = marked(values[0], values[0] < 0)
            rows.append((signal.name, signal.platform, margins.get(signal.name), len(values), least, values[len(values) // 2], values[-1],
                         len(signal.missed)))
    if not rows:
        return ""
    head = ("actor", "platform", "margin by check", "events", "least room, us", "median", "greatest", "missed")
    text = '<p class="soft">The room is what was left until the deadline when it acted, in microseconds; the margin is what is left at the latest.</p>'
    return text + table(head, rows, range(2, 8)) + '<div data-part="rooms"></div>'


def network_part(found: Gathered) -> str:
    """How long messages were on their way, in a replay."""
    rows = []
    for signal in found.signals:
        if signal.group == "network":
            values = sorted(signal.values) or [None]
            past = marked(len(signal.missed), signal.missed)
            rows.append((signal.name, signal.extra["to"], signal.extra["sent"], len(signal.values), values[0], values[len(values) // 2],
                         values[-1], signal.limit, past))
    if not rows:
        return ""
    head = ("from", "to", "messages", "recorded", "least, us", "median", "greatest", "delay of the link", "past it")
    lags = table(("platform", "its clock is behind, us"), found.lags.items(), (1,)) if found.lags else ""
    return table(head, rows, range(2, 9)) + lags + '<div data-part="network"></div>'


def clocks_part(found: Gathered) -> str:
    """What the platforms' clocks showed."""
    if not any(signal.group == "readings" for signal in found.signals):
        return ""
    return ('<p class="soft">How long after the time of an event each platform fired an actor for it, by the reading of its own clock, in microseconds; '
            'below 0 it fired before that time.</p><div data-part="readings"></div>')


def graph_part(found: Gathered) -> str:
    """The picture, the margins and the warnings."""
    picture = tag("div", found.picture, class_="picture") if found.picture else ""
    rows = [(margin.actor, margin.offset, marked(margin.margin, (margin.margin or 0) < 0)) for margin in found.margins]
    remarks = "".join(tag("li", escape((f"line {remark.line}: " if remark.line else "") + remark.text)) for remark in found.remarks)
    warnings = f"<h3>Warnings</h3><ul>{remarks}</ul>" if remarks else ""
    margins = tag("details", "<summary>offsets and margins</summary>" + table(("actor", "offset", "margin"), rows, (1, 2)), open="open") if rows else ""
    return picture + warnings + margins


def timing_part(found: Gathered) -> str:
    """How far each number may grow."""
    if not found.timing:
        return ""
    head = ("number", "of", "now", "may grow by", "then", "check accepts", "sets the offset of")
    return table(head, found.timing.growth, (2, 3, 5)) + table(("actor", "offset", "margin", "set by", "path"), found.timing.offsets, (1, 2))


def made_at() -> str:
    """When the page was made; SOURCE_DATE_EPOCH is another time, for a page that is the same each time."""
    stated = environ.get("SOURCE_DATE_EPOCH")
    try:
        now = datetime.fromtimestamp(int(stated), timezone.utc) if stated else datetime.now(timezone.utc)
    except (ValueError, OverflowError, OSError) as fault:
        raise Fault(f"SOURCE_DATE_EPOCH: `{stated}` is no number of seconds since the start of 1970") from fault
    return now.strftime("%Y-%m-%d %H:%M:%S UTC")


def files_table(found: Gathered) -> str:
    """The files that were read, with their digests."""
    return table(("file", "bytes", "SHA-256"), [(name, size, f"<code>{digest}</code>") for name, size, digest in found.files], (1,))


def made_by() -> str:
    """Which version of this made the page, and when."""
    return f'<p class="soft">Made by ptides report {escape(version())} at {made_at()}.</p>'


def what_part(found: Gathered) -> str:
    """The command, the version and the files."""
    lines = [found.asked.command(), f"status {found.status}", "", *found.version]
    return tag("pre", escape("\n".join(lines))) + files_table(found) + made_by()


def sections(found: Gathered, wall: Wall) -> list[tuple[str, str]]:
    """Each part with its name, if it has something."""
    contents = {"trends": trends_part(found), "missed": missed_part(found, wall), "deadlines": deadlines_part(found), "network": network_part(found),
                "clocks": clocks_part(found), "graph": graph_part(found), "timing": timing_part(found), "what": what_part(found)}
    return [(name, section(name, "Late" if name == "missed" and found.refused else title, contents[name])) for name, title in PARTS if contents[name]]


def page(found: Gathered, title: str, zero: Optional[Zero]) -> str:
    """The whole page of one run."""
    wall = Wall(zero)
    parts = sections(found, wall)
    text, outlines = data(found.signals, zero, "run", MOST_DATA)
    if outlines:
        found.notes.append(f"There are so many events that {outlines} trends are outlines: of equal parts the first, least, greatest and last event.")
        parts = sections(found, wall)
    links = "".join(f'<a href="#{name}">{"Late" if name == "missed" and found.refused else title}</a>' for name, title in PARTS if name in dict(parts))
    head = f"<header><h1>{escape(title)}</h1>{verdict(found)}{facts(found, wall)}<nav>{links}</nav></header>"
    return document(title, tag("main", head + "".join(part for _, part in parts), data_key="run") + text)


def document(title: str, body: str) -> str:
    """The page around its parts, with the programs and styles."""
    script, style, licence = library()
    licences = tag("details", f"<summary>The trends are drawn by dygraphs, whose licence this is</summary>{tag('pre', escape(licence))}")
    head = (f'<meta charset="utf-8"><meta name="viewport" content="width=device-width,initial-scale=1">'
            f'<meta http-equiv="Content-Security-Policy" content="{POLICY}"><title>{escape(title)}</title><style>{style}{own("report.css")}</style>')
    scripts = "".join(f"<script>{text}</script>\n" for text in (script, *map(own, ("signals.js", "trends.js", "report.js"))))
    return f'<!doctype html>\n<html lang="en"><head>{head}</head>\n<body>{body}\n<footer>{licences}</footer>\n{scripts}</body></html>\n'
