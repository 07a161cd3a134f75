#!/usr/bin/env python3
"""Writes run.log, of zeros, with a byte more than the limit of 67,108,864."""
with open("run.log", "wb") as file:
    file.truncate(67_108_865)
