#!/usr/bin/env python3
"""Writes s.csv: 100,001 rows, one more than a sensor may have."""
with open("s.csv", "w") as file:
    file.write("time,seen,value\n")
    file.writelines(f"{time},{time},7\n" for time in range(1, 100_002))
