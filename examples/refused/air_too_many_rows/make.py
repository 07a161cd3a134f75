#!/usr/bin/env python3
"""Writes air.csv: 100,001 rows, one more than an air file may have."""
with open("air.csv", "w") as file:
    file.write("what,name,value\n")
    file.writelines("transit,w,40\n" for _ in range(100_001))
