#!/usr/bin/env python3
"""Writes graph.json: a graph with spaces before it, until it has a byte more than the limit of 1,048,576."""
GRAPH = '{"ptides":1,"until":1000,"clock_error":0,"platforms":["p"],"actors":[],"wires":[],"links":[]}'
with open("graph.json", "w") as file:
    file.write(" " * (1_048_577 - len(GRAPH)) + GRAPH)
