#!/usr/bin/env python3
"""Writes drive.log, brakes.log and engine.log as `candump -L` would: a made recording of a drive of 12 s, not one of a real car.

drive.log is the bus of the whole drive, with two other identifiers in it:

  1A0  the brake pedal, each 10 ms: bytes 0 and 1, the greatest first, in thousandths of its way
  0A0  the speed of the car, each 20 ms: bytes 2 and 3, the least first, in 0.01 km/h
  2B0  the stalk of the cruise control, each 100 ms: bit 0 of byte 0 is 1 while the driver sets it

A frame is on the bus 150 us after it was measured or later, and at most 900 us. The driver sets the cruise control at 1.5 s, 5.5 s and
9.0 s and brakes from 3.2 s, 7.1 s and 10.4 s on for 0.6 s each.

brakes.log and engine.log are the frames 0C8 with which the brakes report a press (1) or a release (0), as the two ends of the bus saw them.
The brakes send 1,001 us after the sample that shows the change. The frame is there 300 to 1,700 us later, by a clock that is 40 us behind.
All delays are drawn with the seed 8.
"""
import random

START = 1_764_320_400
BEHIND = 40
PRESSES = (3_200_000, 7_100_000, 10_400_000)
SETS = (1_500_000, 5_500_000, 9_000_000)
HELD = 600_000
PRESSED, RELEASED = 50, 30
delays = random.Random(8)


def stamped(when, frame):
    return f"({START + when // 1_000_000}.{when % 1_000_000:06}) can0 {frame}\n"


def seen(time):
    return time + 150 + delays.randint(0, 750 if delays.randrange(20) == 0 else 400)


def pedal_at(time):
    """The pedal is pressed down within 80 ms, held, and let go within 120 ms. It trembles a little."""
    for press in PRESSES:
        if press <= time < press + 80_000:
            return (time - press) * 620 // 80_000
        if press + 80_000 <= time < press + HELD:
            return 620 + (time // 10_000) % 7
        if press + HELD <= time < press + HELD + 120_000:
            return 620 - (time - press - HELD) * 620 // 120_000
    return (time // 10_000) % 3


frames, changes = [], []
speed, pressed = 5200, False
for time in range(10_000, 12_000_001, 10_000):
    pedal = pedal_at(time)
    frames.append((seen(time), "1A0#" + pedal.to_bytes(2, "big").hex().upper() + f"{time // 10_000 % 256:02X}"))
    if pressed != (pedal >= (RELEASED + 1 if pressed else PRESSED)):
        pressed = not pressed
        changes.append((time, pressed))
    speed += -9 if pedal > PRESSED else 2 if speed < 5200 else 0
    if time % 20_000 == 0:
        frames.append((seen(time), "0A0#0000" + speed.to_bytes(2, "little").hex().upper()))
    if time % 100_000 == 0:
        frames.append((seen(time), f"2B0#{int(any(0 <= time - each < 200_000 for each in SETS)):02X}"))
    if time % 50_000 == 0:
        frames.append((seen(time), f"18FEF100#FF{time // 50_000 % 256:02X}00FFFFFFFFFF"))
    if time % 500_000 == 0:
        frames.append((seen(time), "3D0#R"))
with open("drive.log", "w") as file:
    file.writelines(stamped(when, frame) for when, frame in sorted(frames))
with open("brakes.log", "w") as brakes, open("engine.log", "w") as engine:
    for time, is_press in changes:
        frame = f"0C8#{int(is_press):02X}"
        brakes.write(stamped(time + 1001, frame))
        engine.write(stamped(time + 1001 + delays.randint(300, 1700) - BEHIND, frame))
