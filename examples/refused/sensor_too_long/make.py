#!/usr/bin/env python3
"""Writes s.csv: a good row, and then line feeds, until the file has a byte more than the limit of 8,388,608."""
ROW = "time,seen,value\n50,55,7\n"
with open("s.csv", "w") as file:
    file.write(ROW + "\n" * (8_388_609 - len(ROW)))
