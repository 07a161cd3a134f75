#!/usr/bin/env python3
"""Writes s.csv: one measurement, 7 at 50 us, which is recorded 5 us later."""
with open("s.csv", "w") as file:
    file.write("time,seen,value\n")
    file.write(f"50,{50 + 5},7\n")
