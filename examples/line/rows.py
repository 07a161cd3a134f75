#!/usr/bin/env python3
"""Writes cell.csv: the gross weights, in grams, of 20 bottles on a belt, one each 50,000 us.

A bottle weighs 20 g and is filled with 500 g, which the filler misses by up to 12 g. The nozzle is clogged at bottle 6, which
gets 430 g, and drips at bottle 11, which gets 560 g. The load cell takes 2,000 to 3,500 us to come to rest, and then records.
"""
GAP = 50_000
with open("cell.csv", "w") as file:
    file.write("time,seen,value\n")
    for bottle in range(1, 21):
        filled = {6: 430, 11: 560}.get(bottle, 488 + 7 * bottle % 25)
        settles = 2000 + 500 * (bottle % 4)
        file.write(f"{GAP * bottle},{GAP * bottle + settles},{filled + 20}\n")
