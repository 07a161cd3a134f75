#!/usr/bin/env python3
"""Writes pedal.csv, body.csv and wheel.csv: a stop over a patch of ice, sampled each 20 ms, and a last sample at walking pace.

The three sensors sample at the same times. A sample is recorded 100 to 900 us after its time.
"""
# Time in ms, pedal in thousandths, speeds of car and wheel in mm/s.
SAMPLES = [
    (20, 0, 12000, 12000), (40, 300, 12000, 11900), (60, 600, 11900, 11600), (80, 800, 11800, 11200), (100, 800, 11700, 9900),
    (120, 800, 11600, 8400), (140, 800, 11550, 7700), (160, 800, 11500, 9200), (180, 800, 11400, 10260), (200, 800, 11300, 10848),
    (220, 0, 11250, 11250), (2000, 200, 1400, 0)]
for column, name in enumerate(("pedal", "body", "wheel"), 1):
    with open(f"{name}.csv", "w") as file:
        file.write("time,seen,value\n")
        for number, sample in enumerate(SAMPLES):
            time = 1000 * sample[0]
            file.write(f"{time},{time + 100 + (137 * number + 251 * column) % 800},{sample[column]}\n")
