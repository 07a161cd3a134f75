#!/usr/bin/env python3
"""Writes speed.csv: the speed of an engine, in per cent of what is wanted, sampled each 1,000 us.

At 98 % its load falls away: it gains 6 % until the next sample, and the opened valve then takes 7 % off. The samples wait
for the plant's bus before they are recorded, 150, 50 and 190 us.
"""
speed = 98
with open("speed.csv", "w") as file:
    file.write("time,seen,value\n")
    for number, (change, wait) in enumerate([(0, 150), (6, 50), (-7, 190)], start=1):
        speed += change
        file.write(f"{1000 * number},{1000 * number + wait},{speed}\n")
