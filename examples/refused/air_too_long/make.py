#!/usr/bin/env python3
"""Writes air.csv: a good row, and then line feeds, until the file has a byte more than the limit of 8,388,608."""
ROW = "what,name,value\nlag,q,5\n"
with open("air.csv", "w") as file:
    file.write(ROW + "\n" * (8_388_609 - len(ROW)))
