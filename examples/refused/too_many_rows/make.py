#!/usr/bin/env python3
"""Writes graph.json: a machine of 65 rows, one more than it may have."""
import json

rows = [{"state": n, "low": 0, "high": 9, "next": n + 1, "emit": None} for n in range(65)]
actors = [{"name": "m", "platform": "p", "kind": "machine", "start": 0, "outputs": 1, "rows": rows}]
graph = {"ptides": 1, "until": 1000, "clock_error": 0, "platforms": ["p"], "actors": actors, "wires": [], "links": []}
with open("graph.json", "w") as file:
    json.dump(graph, file)
