#!/usr/bin/env python3
"""Writes plant.log and panel.log as `candump -l` would at the two ends of a network: a made recording, not one of a real bus.

The plant sends the error of the speed as the frame 0C8: two bytes with a sign, the greatest first, and the frame's number. It sends
201 us after each sample. The frame is at the panel 190 us later or more; how much later is drawn with the seed 11, and it is 390 us at
most. The panel's clock is 35 us behind the plant's, and each log has the stamps of its own clock. Another frame, 3D0, is in both logs.
"""
import csv
import random

START = 1_764_320_400
BEHIND = 35
transits = random.Random(11)


def line(when, frame):
    return f"({START + when // 1_000_000}.{when % 1_000_000:06}) can0 {frame}\n"


sent, received = [], []
with open("speed.csv") as file:
    for number, row in enumerate(csv.DictReader(file), start=1):
        when = int(row["time"]) + 201
        frame = "0C8#" + (int(row["value"]) - 100).to_bytes(2, "big", signed=True).hex().upper() + f"{number % 16:02X}"
        sent.append(line(when, frame))
        received.append(line(when + transits.randint(190, 390) - BEHIND, frame))
        if number % 5 == 0:
            sent.append(line(when + 5, "3D0#00"))
            received.append(line(when + 405 - BEHIND, "3D0#00"))
with open("plant.log", "w") as file:
    file.writelines(sent)
with open("panel.log", "w") as file:
    file.writelines(received)
