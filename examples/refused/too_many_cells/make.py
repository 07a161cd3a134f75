#!/usr/bin/env python3
"""Writes graph.json: lanes of 1,025 cells, one more than all lanes of a graph may have."""
import json

actors = [{"name": "k", "platform": "p", "kind": "lanes", "cells": [1] * 1025}]
graph = {"ptides": 2, "until": 1000, "clock_error": 0, "clock_errors": [], "platforms": ["p"],
         "actors": actors, "wires": [], "links": []}
with open("graph.json", "w") as file:
    json.dump(graph, file)
