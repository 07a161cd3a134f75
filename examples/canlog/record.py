#!/usr/bin/env python3
"""Writes drive.log as `candump -L` would: a made recording of 1.6 s, not one of a real car.

A car gains 0.2 km/h each 20 ms, beginning at 40 km/h. Two controllers measure at the same times, each 20 ms:

  0A0  the speed of the car, bytes 0 and 1, the greatest first, in 0.02 km/h
  0B1  the speed of a driven wheel, bytes 2 and 3, the least first, with a sign, in 0.01 km/h

Three things go wrong. From 0.40 s to 0.54 s the wheel spins. From 0.72 s to 0.84 s its frames are lost. From 1.02 s to 1.24 s
the first controller repeats the value of 1.00 s. A frame is on the bus 150 us after it was measured or later; how much later is
drawn with the seed 29: mostly up to 500 us more, and sometimes up to 700. Two other identifiers are in the log too.
"""
import random

START = 1_764_320_400
PERIOD = 20_000
SPIN = {20: 100, 21: 200, 22: 300, 23: 400, 24: 400, 25: 300, 26: 200, 27: 100}
LOST = range(36, 43)
STUCK = range(51, 63)
delays = random.Random(29)


def stamp(number):
    most = 700 if delays.randrange(20) == 0 else 500
    return PERIOD * number + 150 + delays.randint(0, most)


frames = []
for number in range(1, 81):
    speed = 4000 + 20 * number
    shown = 4000 + 20 * STUCK[0] - 20 if number in STUCK else speed
    frames.append((stamp(number), "0A0#" + (shown // 2).to_bytes(2, "big").hex().upper() + "0000"))
    wheel = (speed + SPIN.get(number, 0)).to_bytes(2, "little", signed=True).hex().upper()
    if number not in LOST:
        frames.append((stamp(number), f"0B1#0000{wheel}{number % 16:02X}"))
    if number % 5 == 0:
        frames.append((stamp(number), f"18FEF100#FF{number:02X}00FFFFFFFFFF"))
    if number % 10 == 0:
        frames.append((stamp(number), "3D0#R"))
with open("drive.log", "w") as file:
    for when, frame in sorted(frames):
        file.write(f"({START + when // 1_000_000}.{when % 1_000_000:06}) can0 {frame}\n")
