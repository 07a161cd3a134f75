#!/usr/bin/env python3
"""Writes graph.json: 257 actors, one more than a file of version 1 may have."""
import json

actors = [{"name": f"r{n}", "platform": "p", "kind": "count"} for n in range(257)]
graph = {"ptides": 1, "until": 1000, "clock_error": 0, "platforms": ["p"], "actors": actors, "wires": [], "links": []}
with open("graph.json", "w") as file:
    json.dump(graph, file)
