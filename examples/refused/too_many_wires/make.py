#!/usr/bin/env python3
"""Writes graph.json: 1,025 wires, one more than a file of version 1 may have."""
import json

wires = [["a", 0, "b", 0]] * 1025
graph = {"ptides": 1, "until": 1000, "clock_error": 0, "platforms": ["p"], "actors": [], "wires": wires, "links": []}
with open("graph.json", "w") as file:
    json.dump(graph, file)
