#!/usr/bin/env python3
"""Writes front.csv, middle.csv and rear.csv: the rim speeds of a truck's three axles in cm/s, sampled each 10 ms.

The truck gains 2 cm/s from sample to sample (2 m/s^2), beginning at 500 cm/s. The front and the rear axle roll freely; the
rear one, with worn tyres, reads 1 cm/s more. The middle axle is driven: on the ice under it at samples 6 to 9 it gains 20 cm/s
more with each sample, and after that it loses 30 cm/s with each until it rolls again.

A sample is recorded 120 us after its time in front, 300 to 600 us after it in the middle and 700 to 900 us after it behind.
"""
SAMPLE = 10_000


def write(name, rows):
    with open(name + ".csv", "w") as file:
        file.write("time,seen,value\n")
        for number, lag, speed in rows:
            file.write(f"{SAMPLE * number},{SAMPLE * number + lag},{speed}\n")


front, middle, rear = [], [], []
spin = 0
for number in range(1, 21):
    ground = 500 + 2 * number
    spin = spin + 20 if 6 <= number <= 9 else max(0, spin - 30)
    front.append((number, 120, ground))
    middle.append((number, 300 + 100 * (number % 4), ground + spin))
    rear.append((number, 700 + 50 * (number % 5), ground + 1))
write("front", front)
write("middle", middle)
write("rear", rear)
