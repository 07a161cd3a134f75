#!/usr/bin/env python3
"""Writes graph.json: 65 links, one more than a graph may have."""
import json

links = [{"from": "w", "to": "r", "delay": 0}] * 65
graph = {"ptides": 1, "until": 1000, "clock_error": 0, "platforms": ["p"], "actors": [], "wires": [], "links": links}
with open("graph.json", "w") as file:
    json.dump(graph, file)
