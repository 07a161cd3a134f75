"""Sensor files: their records with places, and what is wrong in them."""
from __future__ import annotations

import re
from typing import Iterator, Optional

from ptides import limits
from ptides.companion import read
from ptides.explain.findings import Finding, Source, Spot, count, length_of
from ptides.explain.graph import Graph, checked

# A record: its fields, each with the place at which it starts and ends.
Record = list[tuple[str, int, int]]
FIELD = re.compile(r'"((?:[^"]|"")*)(?:"([^,\r\n]*)|$)|([^,\r\n]*)')


def records(text: str) -> Iterator[Record]:
    """The records of a sensor file. A blank line is none."""
    at = 1 if text.startswith("\ufeff") else 0
    while at < len(text):
        if text[at] in "\r\n":
            at += 1
            continue
        record: Record = []
        while not record or text[at:at + 1] == ",":
            found = FIELD.match(text, at + bool(record))
            value = found[3] if found[1] is None else found[1].replace('""', '"') + (found[2] or "")
            record.append((value, found.start(), found.end()))
            at = found.end()
        yield record


SENSOR_COLUMNS, AIR_COLUMNS = ["time", "seen", "value"], ["what", "name", "value"]


def header_help(record: Record, text: str, columns: list[str]) -> str:
    """What was probably meant by another header."""
    values = [value for value, _, _ in record]
    words = [re.sub(r"[^a-z]", "", value.lower()) for value in values]
    is_row = words[:1] in (["lag"], ["transit"]) or all(re.fullmatch(r"\s*[+-]?[0-9.]+\s*", value) for value in values)
    cases = [(not values, "the file is empty: write the header first"), ("\x00" in text[:50], "the file is UTF-16: save it as UTF-8"),
             (len(values) == 1 and re.search("[;\t]", "".join(values)), "write commas between the fields"),
             (is_row, "the header is missing: add this line before the rows"),
             (words == columns, "write it in small letters, without spaces and other signs"),
             (sorted(words) == sorted(columns), "bring the columns into this order, in the rows too"),
             (words == SENSOR_COLUMNS, "this is a sensor file; `ptides rows air` makes an air file from two logs"),
             (words == AIR_COLUMNS, "this is an air file, which `ptides replay` takes after the graph"),
             ("seen" in columns and "seen" not in words, "the three columns are needed: if it isn't known when a row was seen, repeat its time")]
    return next((text for holds, text in cases if holds), "")


Ranges = dict[str, tuple[int, int]]
SENSOR_RANGES: Ranges = {"time": (0, 10**15), "seen": (0, 10**16), "value": (-(2**63), 2**63 - 1)}


def wrong_number(source: Source, record: Record, ranges: Ranges) -> Optional[Finding]:
    """The first field of a row that isn't its number, and why."""
    for (value, start, end), (column, (low, high)) in zip(record, ranges.items()):
        if re.fullmatch("-?[0-9]{1,20}" if low < 0 else "[0-9]{1,20}", value, re.A) and low <= int(value) <= high:
            continue
        unit = "choose a smaller unit, as tenths, and scale all rows" if low < 0 else "times are whole microseconds"
        below = {"value": "" if low < 0 else "let the clock that is furthest ahead have the lag 0"}.get(column, "count times from the start of the recording")
        cases = [("", "this field is empty", ""), (r"\s.*|.*\s", "a space belongs to the field", f"write {value.strip()}"),
                 (r"[+-]?[0-9.]*[.eE].*", "a whole number has no point and no exponent", unit),
                 (r"\+.*", "a number has no `+` before it", f"write {value[1:]}"),
                 ("-[0-9]+", "out of range", below),
                 ("[0-9]+", "out of range" if len(value) <= 20 else "more than 20 digits", unit), (".*", "no whole number", "write digits alone")]
        why, better = next((why, better) for form, why, better in cases if re.fullmatch(form, value, re.A | re.S))
        return Finding(Spot(source, start, max(end, start + 1), f"`{column}`: {why}"), f"a whole number from {low} to {high}", [better])
    return None


def wrong_order(source: Source, fault: str, before: Record, record: Record) -> Optional[Finding]:
    """A row that is out of order, or seen before its time; nothing if it isn't."""
    column = 0 if fault == "time order" else 1
    (value, start, end), (last, last_start, last_end), time = record[column], before[column], record[0][0]
    if fault == "seen early":
        return Finding(Spot(source, start, end, f"{int(time) - int(value)} before the row's time, {time}"), "`seen` >= `time`",
                       ["repeat the time, if the row was seen at once; are the two columns exchanged?"]) if int(value) < int(time) else None
    if int(value) > int(last) or column and int(value) == int(last):
        return None
    same = int(value) == int(last)
    expected = "`seen` that never falls from row to row" if column else "`time` that rises from row to row"
    better = "remove one of the two, or part them by a microsecond" if same else "sort the rows by time"
    return Finding(Spot(source, start, end, f"the row before has {last}, and this {'the same' if same else 'less'}"), expected,
                   ["a row that had to wait for an earlier one is seen with it, not before it" if column else better],
                   [Spot(source, last_start, last_end, "the row before")])


def late_row(graph: Graph, sensor: str, source: Source, rows: list[Record], line: str) -> Optional[Finding]:
    """A row that is seen later than the bound allows, and the bounds that take it and all rows; nothing if it isn't late."""
    row, said, limit = (int(number) for number in re.fullmatch(r"late \w+ row (\d+), seen (\d+) past (\d+)", line).groups())
    bound, until = graph.actor(sensor).get("bound"), graph.root.number("until")
    (time, _, _), (seen, start, end) = rows[row][:2]
    if int(seen) != said or limit != int(time) + int(bound.value) or said <= limit or int(time) > until:
        return None
    waits = [int(each[1][0]) - int(each[0][0]) for each in rows[1:] if int(each[0][0]) <= until]
    late = sum(wait > int(bound.value) for wait in waits)
    then, need = checked(graph, (bound.start, bound.end, str(max(waits)))), int(seen) - int(time)
    helps = [f"a bound of {need} takes this row"] if need < max(waits) else []
    helps += [f"a bound of {max(waits)} takes all rows up to `until`, {late} of {len(waits)} are late now: `check` then {then}"]
    return Finding(Spot(source, start, end, f"seen {need} after the row's time, {time}, and the bound is {bound.value}"),
                   f"`seen` of at most {int(time) + int(bound.value)}", helps, [graph.spot(bound, f"the bound of `{sensor}`")])


def sensor_fault(graph: Graph, line: str, claims: int) -> Optional[Finding]:
    """A fault of a sensor file, or a row of it that is late."""
    found = re.match(r"sensor (\w+): ([a-z ]+?)(?: at row (\d+))?$|late (\w+) row (\d+),", line)
    sensor, fault, row = found[1] or found[4], found[2] or "late", int(found[3] or found[5] or 0)
    node = graph.actor(sensor).get("file")
    most = limits.rows_limit(claims)
    data = read(node.text(), 2 * limits.file_bytes_limit(claims))
    source = Source(node.text(), data.decode("utf-8", errors="replace"))
    if fault == "too long":
        length = length_of(node.text(), data)
        return graph.found(node, f"this file has {length.text}", f"at most {limits.file_bytes_limit(claims):,} bytes",
                           f"record fewer rows, or leave some out; or allow it: {limits.option_for(limits.claims_for(length.rows, length.size))}")
    rows = list(records(source.text))
    record = rows[most + 1] if fault == "too many rows" else rows[row] if rows else []
    start, end = (record[0][1], record[-1][2]) if record else (0, 1)
    commas = "write commas between the fields" if re.search("[;\t]", source.text[start:end]) else ""
    label, expected, better = {
        "header": ("this isn't the header" if rows else "there is no header", "the line `time,seen,value`",
                   header_help(record, source.text, SENSOR_COLUMNS)),
        "too many rows": (f"row {most + 1:,}", f"at most {most:,} rows", f"the file has {len(rows) - 1:,}, which go in {-(-(len(rows) - 1) // most)} parts: `--from` and "
                          f"`--to` of `rows` take one (docs/RECORDINGS.md, Long recordings); or allow them: {limits.option_for(limits.claims_for(rows=len(rows) - 1))}"),
        "fields": (f"row {row} has {count(len(record), 'field')}", "three fields: time,seen,value", commas)}.get(fault, ("", "", ""))
    if label:
        return Finding(Spot(source, start, end, label), expected, [better])
    if fault == "late":
        return late_row(graph, sensor, source, rows, line)
    return wrong_number(source, record, SENSOR_RANGES) if fault == "number" else wrong_order(source, fault, rows[max(1, row - 1)], record)
