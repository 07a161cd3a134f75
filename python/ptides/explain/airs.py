"""Air files, and messages that are late by them."""
from __future__ import annotations

import re
from typing import Optional

from ptides import limits
from ptides.companion import read
from ptides.explain.command_line import at_word, plain_words, read_fault
from ptides.explain.findings import Finding, Source, Spot, a, count, draw, listed, near, length_of
from ptides.explain.graph import Graph, checked
from ptides.explain.json_text import read_json
from ptides.explain.tables import AIR_COLUMNS, header_help, records, wrong_number

class Air:
    """An air file: its records, and what they say of the platforms and links of a graph."""

    def __init__(self, path: str, graph: Graph, claims: int):
        data = read(path, 2 * limits.file_bytes_limit(claims))
        self.source, self.graph, self.claims = Source(path, data.decode("utf-8", errors="replace")), graph, claims
        self.rows = list(records(self.source.text))
        self.platforms = [each.text() for each in graph.parts["platform"]]
        self.senders = [start for start, _ in graph.linked]
        good = [[value for value, _, _ in record] for record in self.rows[1:] if len(record) == 3]
        self.lags = {name: int(value) for what, name, value in good if what == "lag" and value.isdecimal()}

    def spot(self, start: int, end: int, label: str) -> Spot:
        """A part of the file."""
        return Spot(self.source, start, end, label)

    def field(self, row: int, column: int, label: str) -> Spot:
        """A field of a row."""
        return self.spot(*self.rows[row][column][1:], label)

    def fault(self, fault: str, row: int) -> Optional[Finding]:
        """A fault of the file or of a row."""
        if fault == "header":
            record = self.rows[0] if self.rows else []
            start, end = (record[0][1], record[-1][2]) if record else (0, 1)
            label = "this isn't the header" if record else "there is no header"
            return Finding(self.spot(start, end, label), "the line `what,name,value`", [header_help(record, self.source.text, AIR_COLUMNS)])
        if fault == "too many rows":
            most = limits.rows_limit(self.claims)
            record, count_of = self.rows[most + 1], len(self.rows) - 1
            return Finding(self.spot(record[0][1], record[-1][2], f"row {most + 1:,}"), f"at most {most:,} rows",
                           [f"the file has {count_of:,}: cut the recording, or allow them: {limits.option_for(limits.claims_for(rows=count_of))}"])
        if fault == "number":
            # The first two columns are names.
            return wrong_number(self.source, self.rows[row][2:], {"value": (0, 10**15)})
        return {"form": self.form, "unknown": self.unknown, "repeated": self.repeated}[fault](row)

    def form(self, row: int) -> Finding:
        """A row without three fields, or with another first one."""
        record = self.rows[row]
        if len(record) != 3:
            text = self.source.text[record[0][1]:record[-1][2]]
            return Finding(self.spot(record[0][1], record[-1][2], f"row {row} has {count(len(record), 'field')}"), "three fields: what,name,value",
                           ["write commas between the fields" if re.search("[;\t]", text) else ""])
        return Finding(self.field(row, 0, "neither `lag` nor `transit`" + near(record[0][0].strip(), ["lag", "transit"])),
                       "`lag` with a platform, or `transit` with a sender")

    def unknown(self, row: int) -> Finding:
        """A name that is none of a platform or of a sender."""
        what, name = self.rows[row][0][0], self.rows[row][1][0]
        pool = self.platforms if what == "lag" else self.senders
        kind, senders = self.graph.kind(name), [start for start, end in self.graph.linked if end == name]
        label = f"no {'platform' if what == 'lag' else 'sender'} has this name" + near(name, pool)
        if kind:
            label = f"this is {a(kind)}, and not {'a platform' if what == 'lag' else 'a `send`'}" + "".join(f"; what it gets is from `{each}`" for each in senders)
        elif what == "transit" and name in self.platforms:
            label = "this is a platform: a platform has a `lag`"
        return Finding(self.field(row, 1, label), f"one of {listed(pool)}" if pool else "a graph with a link: this one has none")

    def repeated(self, row: int) -> Finding:
        """A second lag of a platform."""
        name = self.rows[row][1][0]
        first_row = next(number for number, record in enumerate(self.rows) if [value for value, _, _ in record[:2]] == ["lag", name])
        return Finding(self.field(row, 1, f"`{name}` has a lag already"), "at most one lag of each platform", ["leave one of the two rows out"],
                       [self.field(first_row, 1, "the earlier one")])

    def breach(self) -> Optional[Spot]:
        """The number in the first row that is past a bound; nothing if no row is."""
        delays = {node.get("from").text(): node.number("delay") for node in self.graph.links}
        apart = {name for pair in self.pairs() if self.distance(pair) > int(self.graph.error(pair).value) for name in pair}
        for row, record in enumerate(self.rows[1:], 1):
            what, name, value = (field for field, _, _ in record)
            if name in apart if what == "lag" else int(value) > delays[name]:
                return (self.slow(row, name, int(value)) if what == "transit" else self.apart(row, name)).spot
        return None

    def pairs(self) -> list[tuple[str, str]]:
        """The platforms at the two ends of each link."""
        return [(self.graph.place(start).text(), self.graph.place(end).text()) for start, end in self.graph.linked]

    def distance(self, pair: tuple[str, str]) -> int:
        """How far the lags of two platforms are apart."""
        return abs(self.lags.get(pair[0], 0) - self.lags.get(pair[1], 0))

    def late(self, line: str) -> Finding:
        """A message that is late, and the first row that is past a bound."""
        receiver, time, reading, limit, row = re.fullmatch(r"late (\w+) at (\d+\.\d+), reading (\d+) past (\d+), air row (\d+)", line).groups()
        what, name, value = (field for field, _, _ in self.rows[int(row)])
        found = self.slow(int(row), name, int(value)) if what == "transit" else self.apart(int(row), name)
        found.helps.append(f"the message of {time} came to `{receiver}` when its platform had read {reading}: up to {limit} it would have been in time")
        return found

    def slow(self, row: int, sender: str, time: int) -> Finding:
        """A transit that is past the delay of its link, and the delay that takes all."""
        delay = next(node.get("delay") for node, (start, _) in zip(self.graph.links, self.graph.linked) if start == sender)
        times = [int(record[2][0]) for record in self.rows[1:] if record[0][0] == "transit" and record[1][0] == sender]
        past, most = sum(each > int(delay.value) for each in times), max(times)
        then = checked(self.graph, (delay.start, delay.end, str(most)))
        label = f"{time - int(delay.value)} more than the delay of the link"
        return Finding(self.field(row, 2, label), f"a transit of at most {delay.value}",
                       [f"a delay of {most} takes all transits of `{sender}`, {past} of {len(times)} are past it now: `check` then {then}"],
                       [self.graph.spot(delay, f"the delay of the link from `{sender}`")])

    def apart(self, row: int, name: str) -> Finding:
        """A lag that is too far from that of a platform at the other end of a link."""
        pair = next(pair for pair in self.pairs() if name in pair and self.distance(pair) > int(self.graph.error(pair).value))
        other, by, error = pair[0] if pair[1] == name else pair[1], self.distance(pair), self.graph.error(pair)
        then = checked(self.graph, (error.start, error.end, str(by)))
        return Finding(self.field(row, 2, f"{by} from the lag of `{other}`, {self.lags.get(other, 0)}"), f"lags that are at most {error.value} apart",
                       [f"a clock error of {by} takes these two: `check` then {then}"], [self.graph.spot(error, f"the clock error of `{name}` and `{other}`")])


def air_fault(graph: Graph, line: str, words: list[str]) -> Optional[Finding]:
    """What is wrong with an air file, or with a message that is late by it."""
    path, claims = plain_words(words)[2], limits.claims_in(words)
    if line == "read fault: air":
        return read_fault(None, words, path, "", "air file")
    if line == "air: too long":
        most = limits.file_bytes_limit(claims)
        length = length_of(path, read(path, most))
        return at_word(words, words.index(path), f"this file has {length.text}", f"an air file of at most {most:,} bytes",
                       f"cut the recording, or allow it: {limits.option_for(limits.claims_for(length.rows, length.size))}")
    air, found = Air(path, graph, claims), re.fullmatch(r"air: ([a-z ]+?)(?: at row (\d+))?", line)
    return air.fault(found[1], int(found[2] or 0)) if found else air.late(line)


def past_a_bound(words: list[str], path: str, data: bytes) -> str:
    """A note on the first row of an air file that is past a bound, if there is one; for a replay in which no message was late."""
    source, file = Source(path, data.decode("utf-8", errors="replace")), plain_words(words)[2]
    root = read_json(source, data)
    try:
        spot = None if isinstance(root, Finding) else Air(file, Graph(source, root, words), limits.claims_in(words)).breach()
    except (LookupError, ValueError, StopIteration, OSError):
        spot = None
    if not spot:
        return ""
    return "\n".join(["note: this row is past a bound, and no message was late", *draw(spot, len(str(spot.source.place(spot.start)[0])), "-", spot.label)]) + "\n"
