#!/usr/bin/env python3
"""Writes pedal.csv, body.csv and wheel.csv: made data of a stop on a patch of ice, sampled each 10 ms.

The pedal, in thousandths of its way, is pressed from 50 ms on, 200 more with each sample up to 800. The car goes at 2000 cm/s and
loses 8 cm/s with each sample from 60 ms on. The wheel is as quick as the car, but on the ice it locks: SLIP says by how many
cm/s it is slower at each sample. A pedal sample is recorded 200 to 400 us after its time, the others 100 to 300 us; the seed of
these delays is 1.
"""
import random

SAMPLE = 10_000
SLIP = {7: 10, 8: 20, 9: 60, 10: 120, 11: 180, 12: 200, 13: 140, 14: 90, 15: 50, 16: 20, 17: 10}
delays = random.Random(1)


def write(name, values, least, most):
    with open(name + ".csv", "w") as file:
        file.write("time,seen,value\n")
        for number, value in enumerate(values, 1):
            file.write(f"{SAMPLE * number},{SAMPLE * number + delays.randint(least, most)},{value}\n")


numbers = range(1, 21)
car = [2000 - 8 * max(0, number - 5) for number in numbers]
write("pedal", [min(800, 200 * max(0, number - 4)) for number in numbers], 200, 400)
write("body", car, 100, 300)
write("wheel", [speed - SLIP.get(number, 0) for number, speed in zip(numbers, car)], 100, 300)
