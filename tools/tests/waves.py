#!/usr/bin/env python3
"""Reads what wave writes, by other ways than wave's own, for check-wave.sh.

    waves.py changes VCD            each change as `PATH STAMP VALUE`, signals in the order of their paths
    waves.py vcd-tables VCD GRAPH   the actuators' tables from the dump, without steps
    waves.py csv-tables CSV GRAPH   the actuators' tables from the table of --csv
    waves.py csv-log CSV            the entries of the log from the table of --csv, without their turns
    waves.py svg-counts SVG         how many events, deadlines, rows seen, messages and late firings are drawn
"""
import csv
import json
import sys
import xml.etree.ElementTree as trees


def read_dump(path):
    """The changes of a dump by the paths of the signals; unknown values are left out."""
    words = open(path).read().split()
    scopes, paths, changes, now, at = [], {}, {}, 0, 0
    while at < len(words):
        word = words[at]
        if word == "$scope":
            scopes.append(words[at + 2])
        elif word == "$upscope":
            scopes.pop()
        elif word == "$var":
            paths[words[at + 3]] = ".".join([*scopes, words[at + 4]])
        elif word[0] == "#":
            now = int(word[1:])
        elif word[0] == "b":
            if set(word[1:]) <= set("01"):
                value = int(word[1:], 2)
                changes.setdefault(paths[words[at + 1]], []).append((now, value - 2**64 if value >= 2**63 else value))
            at += 1
        elif word[0] == "1" and word[1:] in paths:
            changes.setdefault(paths[word[1:]], []).append((now, 1))
        if word in ("$scope", "$upscope", "$var", "$date", "$version", "$timescale"):
            at = words.index("$end", at)
        at += 1
    return changes


def actuators(path):
    return [(actor["platform"], actor["name"]) for actor in json.load(open(path))["actors"] if actor["kind"] == "actuator"]


def changes(dump):
    for path, found in sorted(read_dump(dump).items()):
        for stamp, value in found:
            print(path, stamp, value)


def vcd_tables(dump, graph):
    found = read_dump(dump)
    print("actuator,time,value")
    for platform, name in actuators(graph):
        for stamp, value in found.get(f"events.{platform}.{name}", []):
            print(f"{name},{stamp},{value}")


def csv_tables(table, graph):
    records = [record for record in csv.DictReader(open(table)) if record["what"] == "event"]
    print("actuator,time,step,value")
    for _, name in actuators(graph):
        for record in records:
            if record["actor"] == name:
                print(",".join([name, record["time"], record["step"], record["value"]]))


def csv_log(table):
    fields = {
        "row": ("actor", "time", "seen", "value"),
        "claim": ("number", "actor", "time", "step"),
        "post": ("number",),
        "take": ("actor", "time", "step", "value"),
        "sent": ("actor", "time", "step", "value"),
    }
    for record in csv.DictReader(open(table)):
        what, _, end = record["what"].partition(" ")
        if end:
            print(f"{what},{record['actor']},end")
        elif what != "event":
            print(",".join([what, *(record[field] for field in fields[what])]))


def svg_counts(picture):
    classes = [element.get("class") for element in trees.parse(picture).iter()]
    print(*(f"{name} {classes.count(name)}" for name in ("event", "deadline", "seen", "message", "late")), sep=", ")


if __name__ == "__main__":
    {"changes": changes, "vcd-tables": vcd_tables, "csv-tables": csv_tables, "csv-log": csv_log, "svg-counts": svg_counts}[sys.argv[1]](*sys.argv[2:])
