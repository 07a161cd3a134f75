#!/usr/bin/env python3
"""Writes level.csv and valve.csv: the level of a tank in mm and the opening of its valve in thousandths, sampled each hour of a day.

Both are sampled at the same times and recorded 12,000 to 40,000 us later. The first level is above the top, since foam reflects the
beam, and the last is below 0, since the transmitter has an error of 5 mm.
"""
HOUR = 3_600_000_000
SAMPLES = [(2050, 0), (1900, 1000), (1500, 800), (1250, 333), (1000, 500), (300, 1000), (90, 1000), (-5, 0)]
for column, name in enumerate(("level", "valve")):
    with open(f"{name}.csv", "w") as file:
        file.write("time,seen,value\n")
        for hour, sample in enumerate(SAMPLES, 1):
            file.write(f"{HOUR * hour},{HOUR * hour + 12_000 + 4000 * ((hour + column) % 8)},{sample[column]}\n")
