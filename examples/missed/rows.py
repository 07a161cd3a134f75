#!/usr/bin/env python3
"""Writes pressure.csv: the pressure of a boiler in tenths of a bar, sampled each 1,000 us.

It rises by 6 with each sample from 66 on. The valve opens above 80 and lets off 10. A sample is recorded 250 us after its time.
"""
pressure = 60
with open("pressure.csv", "w") as file:
    file.write("time,seen,value\n")
    for number in range(1, 6):
        pressure += -10 if pressure > 80 else 6
        file.write(f"{1000 * number},{1000 * number + 250},{pressure}\n")
