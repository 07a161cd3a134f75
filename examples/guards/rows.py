#!/usr/bin/env python3
"""Writes level.csv: a level in mm that rises and falls, sampled each second. A sample is recorded 3,000 to 5,000 us after its time."""
LEVELS = [100, 250, 430, 640, 905, 870, 801, 799, 250, 245, 215, 170]
with open("level.csv", "w") as file:
    file.write("time,seen,value\n")
    for second, level in enumerate(LEVELS, 1):
        file.write(f"{1_000_000 * second},{1_000_000 * second + 3000 + 1000 * (second % 3)},{level}\n")
