#!/usr/bin/env python3
"""Writes left.csv, right.csv and heat.csv: the torques, in newton metres, on both sides of a drill and its temperature.

Both torques are sampled each 1,000 us and recorded 30 us later. They grow by 4 N m with each sample from 30 N m on, and by
10 N m more at 4,000 us, when the drill jams. The temperature is sampled each 2,000 us, grows by 5 degrees each time from 75 on,
and comes over a slow bus 38,000 us later.
"""


def write(name, gap, lag, values):
    with open(name + ".csv", "w") as file:
        file.write("time,seen,value\n")
        for number, value in enumerate(values, start=1):
            file.write(f"{gap * number},{gap * number + lag},{value}\n")


torques = [30 + 4 * number + (10 if number >= 3 else 0) for number in range(5)]
write("left", 1000, 30, torques)
write("right", 1000, 30, torques)
write("heat", 2000, 38_000, [75, 80, 85])
