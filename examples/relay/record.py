#!/usr/bin/env python3
"""Writes good.vcd, slow.vcd and lost.vcd as a logic analyser's software would: made recordings of a protection relay on a bench.

The bench drives the relay's input TRIP, and the analyser sees it and the relay's output OPEN at 1 MHz. Each recording has 40 pulses
of 1 ms, one each 50 ms and up to 300 us later. The relay opens 2.1 to 3.9 ms after the pulse began, for 20 ms. Both delays are
drawn with the seed 5. In slow.vcd the relay opens 6.4 ms after pulse 17; in lost.vcd it doesn't open after pulse 23.
"""
import random

HEAD = """$date Tue Dec  1 09:12:44 2026 $end
$version logic analyser $end
$comment 2 of 8 channels at 1 MHz $end
$timescale 1 us $end
$scope module bench $end
$var wire 1 ! TRIP $end
$var wire 1 " OPEN $end
$upscope $end
$enddefinitions $end
"""
PULSES = 40
SLOW = {17: 6400}
LOST = {23: None}


def edges(others):
    """Each change of a signal: the time, the value and the sign of the signal. `others` are answers that differ."""
    delays = random.Random(5)
    yield 0, 0, "!"
    yield 0, 0, '"'
    for number in range(1, PULSES + 1):
        trip = 50_000 * number + delays.randint(0, 300)
        answer = others.get(number, delays.randint(2100, 3900))
        yield trip, 1, "!"
        yield trip + 1000, 0, "!"
        if answer is not None:
            yield trip + answer, 1, '"'
            yield trip + answer + 20_000, 0, '"'
    yield 50_000 * (PULSES + 1), 0, "!"


for name, others in (("good", {}), ("slow", SLOW), ("lost", LOST)):
    with open(f"{name}.vcd", "w") as file:
        file.write(HEAD)
        before = None
        for time, value, sign in sorted(edges(others), key=lambda edge: edge[0]):
            file.write(f"#{time}\n" if time != before else "")
            file.write(f"{value}{sign}\n")
            before = time
