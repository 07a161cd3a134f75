#!/usr/bin/env python3
"""Checks schemas/graph.schema.json on the examples: it takes each graph that `ptides` takes, refuses those refused ones whose fault it
can see, and describes each member; and schemas/air.csv-metadata.json likewise on air files. Needs jsonschema. The last line is
`N passed, M failed`.
"""
import csv
import glob
import json
import os
import re
import shutil
import subprocess
import sys
import tempfile

from jsonschema import Draft202012Validator

EXAMPLES = "examples"
# The refusals that a schema sees. Of a range it doesn't see that `low` is above `high`, and of a block not which formulas there are.
SEEN = {"member", "too", "range", "name"}
UNSEEN = {"graph_too_long", "range_of_a_row"}
# The same of air files: of names only the graph knows which there are.
AIR_SEEN = {"header", "form", "number"}


def graph_of(folder):
    """The graph of a folder, made by its script if it is too large to be stored; None if there is none."""
    if not os.path.isdir(folder):
        return None
    with tempfile.TemporaryDirectory() as place:
        copy = shutil.copytree(folder, os.path.join(place, "copy"))
        # Of a folder that can't be written the copy can't be written either.
        os.chmod(copy, 0o700)
        if os.path.exists(os.path.join(copy, "make.py")):
            subprocess.run([sys.executable, "make.py"], cwd=copy, check=True)
        try:
            with open(os.path.join(copy, "graph.json"), encoding="utf-8") as file:
                return json.load(file)
        except (FileNotFoundError, json.JSONDecodeError):
            return None


def sees(name, folder):
    """Whether the fault in the folder's line is one that a schema sees."""
    with open(os.path.join(folder, "expected.notes"), encoding="utf-8") as file:
        words = file.read().split()
    return words[0] == "graph:" and words[1] in SEEN and name not in UNSEEN


def members(schema):
    """The members that a schema describes, in all its parts, by name."""
    if isinstance(schema, dict):
        for name, part in schema.items():
            if name == "properties":
                yield from part.items()
            yield from members(part)
    elif isinstance(schema, list):
        for part in schema:
            yield from members(part)


def checks():
    """What is checked, and whether it is so."""
    with open("schemas/graph.schema.json", encoding="utf-8") as file:
        schema = json.load(file)
    Draft202012Validator.check_schema(schema)
    validator = Draft202012Validator(schema)
    # The parts that only narrow what is described elsewhere have no description of their own.
    described = {name for name, part in members(schema) if isinstance(part, dict) and "description" in part}
    for name in sorted({name for name, _ in members(schema)}):
        yield f"the schema describes {name}", name in described
    idioms = [os.path.join("idioms", name) for name in os.listdir(os.path.join(EXAMPLES, "idioms"))]
    for name in sorted(os.listdir(EXAMPLES) + idioms):
        graph = graph_of(os.path.join(EXAMPLES, name))
        if graph is not None:
            yield f"the schema takes {name}", validator.is_valid(graph)
    refused = os.path.join(EXAMPLES, "refused")
    for name in sorted(os.listdir(refused)):
        folder = os.path.join(refused, name)
        graph = graph_of(folder)
        if graph is not None:
            wanted = not sees(name, folder)
            yield f"the schema {'takes' if wanted else 'refuses'} refused/{name}", validator.is_valid(graph) == wanted


def fits(field, column):
    """Whether a field is one of a column."""
    kind = column["datatype"]
    is_formed = re.fullmatch(kind["format"], field) is not None
    return is_formed and kind.get("minimum", 0) <= (int(field) if kind["base"] == "integer" else 0) <= kind.get("maximum", 0)


def air_checks():
    """The same of the columns of air files."""
    with open("schemas/air.csv-metadata.json", encoding="utf-8") as file:
        columns = json.load(file)["tableSchema"]["columns"]
    for path in sorted(glob.glob(f"{EXAMPLES}/*/air.csv") + glob.glob(f"{EXAMPLES}/*/*/air.csv") + glob.glob(f"{EXAMPLES}/*/scenarios/*/air.csv")):
        with open(path, encoding="utf-8", newline="") as file:
            head, *rows = (record for record in csv.reader(file) if record)
        found = head == [column["titles"] for column in columns] and all(
            len(row) == len(columns) and all(fits(field, column) for field, column in zip(row, columns)) for row in rows)
        name = path.split("/")[-2]
        wanted = not (name.startswith("air_") and name[4:] in AIR_SEEN)
        yield f"the columns of air files {'take' if wanted else 'refuse'} {path}", found == wanted


def main():
    os.chdir(os.path.dirname(os.path.dirname(os.path.realpath(__file__))))
    passed = failed = 0
    for what, holds in (*checks(), *air_checks()):
        if holds:
            passed += 1
        else:
            failed += 1
            print(f"failed: {what}")
    print(f"{passed} passed, {failed} failed")


main()
