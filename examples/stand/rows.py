#!/usr/bin/env python3
"""Writes the sensor files of the test stand, and those of the scenarios below scenarios/: made data, with a seed.

Two pickups measure the speed of an engine in revolutions a minute each 10 ms, for a second; `pickup_b` reads 3 more. The engine
turns at 6000. When the load is lost, after 500 ms, it gains 100 with each sample up to 6700, and then loses 80 with each. A probe
measures the oil in tenths of a degree each 100 ms. A pickup's sample is recorded 60 to 180 us after its time, one of the oil
20,000 to 38,000 us after it; the seed of these delays is 3.

FAULTS has what is wrong in each scenario. In all but `normal` one thing is.
"""
import random
from pathlib import Path

FAST, SLOW = 10_000, 100_000
SAMPLES = range(1, 101)
HERE = Path(__file__).resolve().parent


def speed(number, load_lost):
    over = max(0, number - 50) if load_lost else 0
    return 6000 + (100 * over if over <= 7 else 700 - 80 * (over - 7))


def rows(period, values, least, most, delays):
    """Rows as lists of time, seen and value, for values by the number of the sample."""
    return [[period * number, period * number + delays.randint(least, most), value] for number, value in values.items()]


def recording(load_lost):
    delays = random.Random(3)
    return {
        "pickup_a": rows(FAST, {number: speed(number, load_lost) for number in SAMPLES}, 60, 180, delays),
        "pickup_b": rows(FAST, {number: speed(number, load_lost) + 3 for number in SAMPLES}, 60, 180, delays),
        "oil": rows(SLOW, {number: 1100 + 5 * number for number in range(1, 11)}, 20_000, 38_000, delays),
    }


def pickup_a_is_lost(files):
    del files["pickup_a"][40:]


def pickup_a_is_stuck(files):
    for row in files["pickup_a"][50:]:
        row[2] = 6000


def pickup_b_reads_zero(files):
    for row in files["pickup_b"][29:]:
        row[2] = 0


def pickup_a_has_a_spike(files):
    files["pickup_a"][39][2] = 9000


def pickup_b_counts_twice(files):
    for row in files["pickup_b"]:
        row[2] *= 2


def oil_is_hot(files):
    for row, value in zip(files["oil"], [1180, 1220, 1260, 1290, 1300, 1310, 1320, 1250, 1190, 1150]):
        row[2] = value


def oil_comes_late(files):
    files["oil"][5][1] = files["oil"][5][0] + 45_000


def clock_falls_back(files):
    files["pickup_a"][58][1] += 15_000


def row_comes_twice(files):
    files["pickup_b"].insert(30, list(files["pickup_b"][29]))


def nothing(_):
    pass


# The name of each scenario, whether the load is lost in it, and what is wrong.
FAULTS = {
    "normal": (False, nothing),
    "a_lost": (True, pickup_a_is_lost),
    "a_stuck": (True, pickup_a_is_stuck),
    "b_zero": (False, pickup_b_reads_zero),
    "spike": (False, pickup_a_has_a_spike),
    "wrong_teeth": (False, pickup_b_counts_twice),
    "oil_hot": (False, oil_is_hot),
    "oil_late": (False, oil_comes_late),
    "clock_back": (False, clock_falls_back),
    "row_twice": (False, row_comes_twice),
    "slow_link": (True, nothing),
}


def write(folder, files):
    folder.mkdir(parents=True, exist_ok=True)
    for name, found in files.items():
        lines = ["time,seen,value", *(",".join(map(str, row)) for row in found)]
        (folder / f"{name}.csv").write_text("\n".join(lines) + "\n")


write(HERE, recording(True))
for name, (load_lost, fault) in FAULTS.items():
    files = recording(load_lost)
    fault(files)
    write(HERE / "scenarios" / name, files)
# In `slow_link` the link takes 5,000 us and not 2,000; the other scenarios have the graph of the stand.
graph = (HERE / "graph.json").read_text().replace('"delay":2000', '"delay":5000')
(HERE / "scenarios" / "slow_link" / "graph.json").write_text(graph)
