#!/usr/bin/env python3
"""Writes graph.json: 121 clock errors, one more than 16 platforms have pairs."""
import json

errors = [["p", "q", 5]] * 121
graph = {"ptides": 2, "until": 1000, "clock_error": 0, "clock_errors": errors, "platforms": ["p", "q"],
         "actors": [], "wires": [], "links": []}
with open("graph.json", "w") as file:
    json.dump(graph, file)
