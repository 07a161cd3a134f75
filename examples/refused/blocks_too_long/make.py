#!/usr/bin/env python3
"""Writes own.blocks, a comment of 65,537 bytes."""
with open("own.blocks", "w") as file:
    file.write("#" + 65_536 * "-")
