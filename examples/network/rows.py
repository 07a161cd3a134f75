#!/usr/bin/env python3
"""Writes speed.csv: the speed of an engine, in per cent of what is wanted, sampled each 1,000 us.

It swings around 100 %: it gains 2 % from sample to sample three times, then loses 2 % three times. The samples wait for the plant's bus
before they are recorded, 20 to 190 us; how long is drawn with the seed 5.
"""
import random

waits = random.Random(5)
speed = 97
with open("speed.csv", "w") as file:
    file.write("time,seen,value\n")
    for number in range(1, 17):
        file.write(f"{1000 * number},{1000 * number + waits.randint(20, 190)},{speed}\n")
        speed += 2 if (number - 1) // 3 % 2 == 0 else -2
