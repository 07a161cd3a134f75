#!/usr/bin/env python3
"""Writes left.csv and right.csv: a shaft that gains 2 rpm each 1,000 us from 1,000 rpm on, seen by two sensors.

Both sample at the same times. The left one's rows are seen 150 us later, the right one's 250 us later. From 5,000 us on the
right one reads 9 rpm too little.
"""
for name, lag, lost in (("left", 150, 0), ("right", 250, 9)):
    with open(name + ".csv", "w") as file:
        file.write("time,seen,value\n")
        for time in range(1000, 9000, 1000):
            speed = 1000 + time // 500
            file.write(f"{time},{time + lag},{speed - (lost if time >= 5000 else 0)}\n")
