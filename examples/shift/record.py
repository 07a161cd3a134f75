#!/usr/bin/env python3
"""Writes history.csv as a plant historian exports it: a made recording of a night shift, not one of a real plant.

The tank's level transmitter LT101 is sampled each 20 s, in percent with one decimal, and the historian stamps a sample 60 to 640 ms later,
drawn with the seed 3. The shift is from 22:00 to 06:00 local time in the night in which summer time begins, so it has 7 hours, and the
zone of the stamps changes at 02:00. The export begins with three lines about itself, has the decimal comma, and has a line for each start
and stop of pump P101 too.

The tank stands at 62 %. The inlet fills it by 0.15 % a sample from 23:10 on, until the pump has started at 00:32 and takes 0.35 % a sample
more, until 01:20. From 04:10:20 to 04:17:00 (summer time) the transmitter gives no value.
"""
import random
from datetime import datetime, timedelta, timezone

BEGIN = datetime(2026, 3, 28, 21, 0, tzinfo=timezone.utc)
CHANGE = datetime(2026, 3, 29, 1, 0, tzinfo=timezone.utc)
SAMPLE = timedelta(seconds=20)
FILLING = (210, 630)
PUMPING = (456, 600)
SILENT = (931, 952)
delays = random.Random(3)


def stamp(when):
    zone = timezone(timedelta(hours=1 if when < CHANGE else 2))
    return when.astimezone(zone).isoformat(timespec="milliseconds")


lines = [
    "# Historian export of area 10, made 2026-03-29T06:05:12+02:00",
    "# Tags: LT101 (tank level, %), P101 (pump, 0 or 1)",
    "# Shift: 2026-03-28T22:00:00+01:00 to 2026-03-29T06:00:00+02:00",
    "Timestamp;Tag;Value;Quality",
]
tenths = 6200
for number in range(1, 1261):
    tenths += (15 if FILLING[0] < number <= FILLING[1] else 0) - (35 if PUMPING[0] < number <= PUMPING[1] else 0)
    when = BEGIN + number * SAMPLE
    if number in PUMPING:
        lines.append(f"{stamp(when - timedelta(seconds=7))};P101;{int(number == PUMPING[0])};Good")
    silent = SILENT[0] <= number < SILENT[1]
    shown = "" if silent else f"{tenths // 100},{tenths % 100 // 10}"
    lines.append(f"{stamp(when + timedelta(milliseconds=delays.randint(60, 640)))};LT101;{shown};{'Bad' if silent else 'Good'}")
with open("history.csv", "w") as file:
    file.write("\n".join(lines) + "\n")
