#!/usr/bin/env python3
"""Writes level.csv and button.csv: the level of a tank in mm, sampled each second, and an operator's button.

The tank has a cross-section of 2 m^2 and stands at 700 mm. 60 l/s flow in until 9 s: 30 mm more each second. Then the inlet is
shut and a pump takes 80 l/s until 16 s: 40 mm less each second. A sample is recorded 3,000 to 5,000 us after its time.

The operator presses the button at 3 s, when there is nothing to acknowledge, and at 9.5 s. A press is recorded 18,000 us
after its time, when the contact has come to rest; its value is 3.
"""
SECOND = 1_000_000
AREA = 2
level = 700
with open("level.csv", "w") as file:
    file.write("time,seen,value\n")
    for second in range(1, 21):
        flow = 60 if second <= 9 else -80 if second <= 16 else 0
        level += flow // AREA
        file.write(f"{SECOND * second},{SECOND * second + 3000 + 1000 * (second % 3)},{level}\n")
with open("button.csv", "w") as file:
    file.write("time,seen,value\n")
    for press in (3_000_000, 9_500_000):
        file.write(f"{press},{press + 18_000},3\n")
