#!/usr/bin/env python3
"""Writes a graph whose shape is hard, with its sensor files and an air file: worst_shapes.py SHAPE FOLDER [SIZE=NUMBER..].

Without words it lists the shapes with their sizes. Each shape is a function of its sizes, and each graph is lawful and of version 2.
`tags` is the number of rows of the sensors that matter. A *decoy* is a unit that has an event and can't fire before the end.
"""
import inspect
import sys

from hard_graph import FAR, UNTIL, Graph
from worst_found import FOUND, joined


def every_1000(tags):
    return range(1000, 1000 * tags + 1, 1000)


def joined_chain(graph, length, tags):
    """Adders in a row with a shift between each two; the sensor feeds all of them, so all wait at each tag and fire in turn."""
    sensor = last = graph.sensor("s", every_1000(tags))
    for number in range(length):
        last = graph.add(f"a{number}", "add", graph.add(f"b{number}", "shift", last, by=1), sensor)
    return graph.actuator("out", last)


def token(graph, name, source, delay):
    """A token that comes from `source` and goes round through a machine and a delay; gives the machine.

    The machine's output 1 gives nothing: what it leads to waits for the token, and never gets an event from it."""
    any_value = {"state": 0, "low": -FAR, "high": FAR, "next": 0, "emit": [0, 1]}
    graph.add(f"m{name}", "merge", source, f"d{name}", n=2)
    graph.add(f"x{name}", "machine", f"m{name}", start=0, outputs=2, rows=[any_value])
    graph.add(f"d{name}", "delay", f"x{name}", d=delay)
    return f"x{name}"


# --- chains

def chain(length=200, tags=100):
    """Shifts in a row: one unit waits at a time."""
    graph = Graph()
    last = graph.sensor("s", every_1000(tags))
    for number in range(length):
        last = graph.add(f"x{number}", "shift", last, by=1)
    graph.actuator("out", last)
    return graph


def chain_joined(length=400, tags=20):
    """All adders of a row wait at each tag, and are safe one after another."""
    graph = Graph()
    joined_chain(graph, length, tags)
    return graph


def chain_of_steps(length=200, tags=100):
    """Delays of 0 in a row, each a step later than the one before."""
    graph = Graph()
    last = graph.sensor("s", every_1000(tags))
    for number in range(length):
        last = graph.add(f"d{number}", "delay", last, d=0)
    graph.actuator("out", last)
    return graph


def chain_of_delays(length=200, tags=100):
    """Delays in a row that are longer than all rows, so that every unit has an event at each time."""
    graph = Graph()
    last = graph.sensor("s", every_1000(tags))
    for number in range(length):
        last = graph.add(f"d{number}", "delay", last, d=1000)
    graph.actuator("out", last)
    return graph


def chains_beside(count=10, length=20, tags=100):
    """Chains of adders beside each other, each with a sensor of its own, all at the same times."""
    graph = Graph()
    for k in range(count):
        sensor = last = graph.sensor(f"s{k}", every_1000(tags))
        for number in range(length):
            last = graph.add(f"a{k}_{number}", "add", last, sensor)
    return graph


# --- fans

def fan_out(width=200, tags=100):
    """One output with many readers."""
    graph = Graph()
    sensor = graph.sensor("s", every_1000(tags))
    for number in range(width):
        graph.add(f"x{number}", "shift", sensor, by=number)
    return graph


def fan_out_delayed(width=100, tags=100):
    """One output with many readers, each of them a delay whose event waits long."""
    graph = Graph()
    sensor = graph.sensor("s", every_1000(tags))
    for number in range(width):
        graph.add(f"x{number}", "count", graph.add(f"d{number}", "delay", sensor, d=FAR))
    return graph


def readers_waiting(merges=450, tags=400):
    """The output of a long delay has eight readers for each merge: each tag is as many events, and all wait at once."""
    graph = Graph()
    far = graph.add("far", "delay", graph.sensor("s", range(1, tags + 1)), d=FAR)
    for number in range(merges):
        graph.add(f"m{number}", "merge", *[far] * 8, n=8)
    return graph


def fan_in(width=100, tags=100):
    """Many readers of a sensor, joined by adders to one."""
    graph = Graph()
    sensor = graph.sensor("s", every_1000(tags))
    layer = [graph.add(f"x{number}", "shift", sensor, by=number) for number in range(width)]
    number = 0
    while len(layer) > 1:
        layer.append(graph.add(f"a{number}", "add", layer.pop(0), layer.pop(0)))
        number += 1
    graph.actuator("out", layer[0])
    return graph


def layers(width=24, depth=8, tags=100):
    """Layers of merges of eight, each fed by eight of the layer before: the most wires for each unit."""
    graph = Graph()
    sensors = [graph.sensor(f"s{number}", every_1000(tags)) for number in range(8)]
    before = sensors * (width // 8 + 1)
    for level in range(depth):
        before = [graph.add(f"m{level}_{number}", "merge", *(before[(number + port) % width] for port in range(8)), n=8)
                  for number in range(width)]
    return graph


# --- decoys

def decoys_after(chain=192, decoys=64, tags=20):
    """Lanes of four cells wait for a sensor that may come late; nothing leads from them to the chain."""
    graph = Graph()
    one, late = graph.sensor("one", [1]), graph.sensor("u", [], bound=FAR)
    for number in range(decoys):
        graph.add(f"q{number}", "lanes", *[one, late] * 4, cells=[2, 2, 2, 2])
    joined_chain(graph, chain, tags)
    return graph


def decoys_of_adders(chain=192, decoys=256, tags=20):
    """The same with adders instead of cells."""
    graph = Graph()
    one, late = graph.sensor("one", [1]), graph.sensor("u", [], bound=FAR)
    for number in range(decoys):
        graph.add(f"q{number}", "add", one, late)
    joined_chain(graph, chain, tags)
    return graph


def decoys_before(chain=192, decoys=256, tags=20):
    """From each decoy a wire leads to the chain, through a delay that is so long that nothing comes in time."""
    graph = Graph()
    one, late = graph.sensor("one", [1]), graph.sensor("u", [], bound=FAR)
    layer = [graph.add(f"q{number}", "add", one, late) for number in range(decoys)]
    far = graph.add("far", "delay", joined(graph, "m", layer), d=100 * FAR)
    sensor = graph.sensor("s", every_1000(tags))
    last = graph.add("first", "merge", far, sensor, n=2)
    for number in range(chain):
        last = graph.add(f"a{number}", "add", graph.add(f"b{number}", "shift", last, by=1), sensor)
    graph.actuator("out", last)
    return graph


def decoys_between(chain=192, decoys=256, tags=20):
    """Decoys with as many tags each as the chain has, of the same times."""
    graph = Graph()
    one, late = graph.sensor("one", every_1000(tags)), graph.sensor("u", [], bound=FAR)
    for number in range(decoys):
        graph.add(f"q{number}", "add", one, late)
    joined_chain(graph, chain, tags)
    return graph


# --- rings

def ring(length=200, tags=100):
    """One ring with one delay; each row goes round until the end."""
    graph = Graph()
    sensor = graph.sensor("s", range(1000, 1000 + tags))
    last = graph.add("m", "merge", sensor, "d", n=2)
    for number in range(length):
        last = graph.add(f"x{number}", "shift", last, by=1)
    graph.add("d", "delay", last, d=UNTIL - 2000)
    return graph


def ring_of_delays(length=100, tags=20, rounds=10):
    """A ring of delays in which many events go round."""
    graph = Graph()
    step = UNTIL // (length * rounds)
    sensor = graph.sensor("s", range(1000, 1000 + tags))
    last = graph.add("m", "merge", sensor, f"d{length - 1}", n=2)
    for number in range(length):
        last = graph.add(f"d{number}", "delay", last, d=step)
    return graph


def both_ways(length=250, tags=2, rounds=20):
    """Merges and delays in a row, wired in both directions: each unit leads to each other one."""
    graph = Graph()
    sensor = graph.sensor("s", range(1000, 1000 + tags))
    for number in range(length):
        before = f"d{number - 1}" if number else sensor
        after = f"d{number + 1}" if number < length - 1 else sensor
        graph.add(f"m{number}", "merge", before, after, n=2)
        graph.add(f"d{number}", "delay", f"m{number}", d=UNTIL // (rounds + 1))
    return graph


def rings_beside(count=100, rounds=100, tags=100):
    """Rings of two beside a chain of adders: each ring's event waits for its next round while the chain fires."""
    graph = Graph()
    start = graph.sensor("one", [1])
    for number in range(count):
        graph.add(f"m{number}", "merge", start, f"d{number}", n=2)
        graph.add(f"d{number}", "delay", f"m{number}", d=UNTIL // rounds + number)
    joined_chain(graph, 20, tags)
    return graph


# --- holders

def waiting_behind_a_ring(waiting=950, rounds=500):
    """A token goes round in a ring, and many units wait for the unit that has it: their holder changes at each turn."""
    graph = Graph()
    ring = token(graph, "", graph.add("e", "every", start=0, period=2 * UNTIL), UNTIL // rounds)
    end = graph.add("q", "every", start=UNTIL - 1, period=2 * UNTIL)
    for number in range(waiting):
        graph.add(f"w{number}", "merge", (ring, 1), end, n=2)
    return graph


def waiting_before_a_ring(waiting=950, rounds=500):
    """The same, but the units that wait have the lowest numbers."""
    graph = waiting_behind_a_ring(waiting, rounds)
    graph.actors.sort(key=lambda actor: not actor["name"].startswith("w"))
    return graph


def waiting_behind_rings(rings=3, waiting=900, rounds=300):
    """Several rings with a token each; units that wait behind the one and behind the other take turns."""
    graph = Graph()
    xs = [token(graph, str(k), graph.add(f"e{k}", "every", start=k, period=2 * UNTIL), UNTIL // rounds + k) for k in range(rings)]
    end = graph.add("q", "every", start=UNTIL - 1, period=2 * UNTIL)
    for number in range(waiting):
        graph.add(f"w{number}", "merge", (xs[number % rings], 1), end, n=2)
    return graph


def two_groups(waiting=400, length=20, rounds=5):
    """Units wait behind adders that fire in turn: behind one of both groups, then behind one of each group, and so on.

    The two groups take turns in number. An output of all leads back to all, through a long delay, so each may hold up each."""
    graph = Graph()
    start = last = graph.add("t", "merge", graph.add("e", "every", start=0, period=2 * UNTIL), "d", n=2)
    steps = []
    for number in range(2 * length):
        last = graph.add(f"x{number}", "add", last, start)
        steps.append(last)
    graph.add("d", "delay", last, d=UNTIL // rounds)
    adders, groups = [], ([], [])
    for number in range(length):
        adders += [(f"h{number}", steps[2 * number], groups), (f"a{number}", steps[2 * number + 1], groups[:1]),
                   (f"b{number}", steps[2 * number + 1], groups[1:])]
    for name, _, leads_to in adders:
        dropped = graph.add(f"d{name}", "above", name, limit=FAR)
        for group in leads_to:
            group.append(dropped)
    fronts = [joined(graph, f"j{k}_", group) for k, group in enumerate(groups)]
    # The first to fire have the highest numbers.
    for name, step, _ in reversed(adders):
        graph.add(name, "add", step, start)
    end = graph.add("q", "every", start=UNTIL - 1, period=2 * UNTIL)
    waits = [graph.add(f"w{number}", "merge", fronts[number % 2], end, "far", n=3) for number in range(waiting)]
    graph.add("far", "delay", joined(graph, "k", waits), d=10 * UNTIL)
    return graph


# --- lanes

def lanes_chain(length=25, tags=100):
    """Lanes of eight cells in a row: eight chains in one."""
    graph = Graph()
    sensors = [graph.sensor(f"s{cell}", every_1000(tags)) for cell in range(8)]
    before = list(sensors)
    for number in range(length):
        name = graph.add(f"l{number}", "lanes", *before, cells=[1] * 8)
        before = [(name, cell) for cell in range(8)]
    return graph


def lanes_slow_cell(length=25, tags=100):
    """Lanes in a row in which one cell of each waits for a sensor that may come late."""
    graph = Graph()
    slow, late = graph.sensor("t", every_1000(tags)), graph.sensor("u", [], bound=FAR)
    before = [graph.sensor(f"s{cell}", every_1000(tags)) for cell in range(6)]
    for number in range(length):
        name = graph.add(f"l{number}", "lanes", *before, slow, late, cells=[1] * 6 + [2])
        before = [(name, cell) for cell in range(6)]
    return graph


# --- rows and readings

def rows_waiting(units=4, tags=4000):
    """All rows are seen at once and wait: of each unit thousands of events."""
    graph = Graph()
    last = graph.sensor("s", range(1, tags + 1), bound=FAR, seen=lambda time: FAR)
    for number in range(units):
        last = graph.add(f"x{number}", "shift", last, by=1)
    graph.actuator("out", last)
    return graph


def rows_waiting_wide(width=100, tags=200):
    """All rows are seen at once, and each of many units has an event of each."""
    graph = Graph()
    sensor = graph.sensor("s", range(1, tags + 1), bound=FAR, seen=lambda time: FAR)
    for number in range(width):
        graph.add(f"x{number}", "shift", sensor, by=1)
    return graph


def many_tags(tags=8000):
    """Three units and many tags, each with readings of its own."""
    graph = Graph()
    graph.actuator("out", graph.add("x", "count", graph.sensor("s", range(10, 10 * tags + 1, 10))))
    return graph


def few_tags(length=1000, tags=20):
    """As many actors as a graph may have, and few tags."""
    graph = Graph()
    last = graph.sensor("s", every_1000(tags))
    for number in range(length):
        last = graph.add(f"x{number}", "scale", last, num=3 - number % 2, den=2 + number % 2)
    graph.actuator("out", last)
    return graph


def staircase(sensors=400, tags=50):
    """Sensors with different bounds and the same times: each unit fires at a reading of its own."""
    graph = Graph()
    for number in range(sensors):
        graph.add(f"x{number}", "count", graph.sensor(f"s{number}", every_1000(tags), bound=number))
    return graph


def holders_alternate(pairs=50, tags=100):
    """Of each two sensors of a join now the one and now the other holds it up."""
    graph = Graph()
    last = graph.sensor("s", every_1000(tags))
    for number in range(pairs):
        left = graph.sensor(f"l{number}", range(1000 + number, 1000 * tags + 1000, 2000), bound=300)
        right = graph.sensor(f"r{number}", range(2000 + number, 1000 * tags + 1000, 2000), bound=600)
        last = graph.add(f"a{number}", "merge", last, graph.add(f"x{number}", "shift", left, by=1),
                         graph.add(f"y{number}", "delay", right, d=1), n=3)
    graph.actuator("out", last)
    return graph


def comb(sensors=50, tags=100):
    """Sensors whose rows take turns, joined in a row of adders: at each time another one fires first."""
    graph = Graph()
    last = graph.sensor("s0", range(1000, 1000 * tags, 1000), bound=500)
    for number in range(1, sensors):
        last = graph.add(f"a{number}", "add", last, graph.sensor(f"s{number}", range(1000 + 7 * number, 1000 * tags, 1000 * sensors // 10),
                                                                 bound=500))
    graph.actuator("out", last)
    return graph


def periods(count=60, firings=60):
    """Actors of periods that differ, which nothing from outside leads to, joined in a row."""
    graph = Graph()
    last = graph.add("e", "every", start=0, period=UNTIL // firings)
    for number in range(count):
        period = UNTIL // firings * 2 + number
        last = graph.add(f"m{number}", "merge", graph.add(f"e{number}", "every", start=number, period=period), last, n=2)
    return graph


# --- platforms

def platforms_in_a_row(platforms=16, length=12, tags=100):
    """A chain over all platforms, with a stretch of adders on each."""
    graph = Graph(platforms, clock_error=5)
    last = None
    for here in range(platforms):
        sensor = graph.sensor(f"s{here}", every_1000(tags), on=here)
        last = graph.add(f"m{here}", "merge", last, sensor, n=2, on=here) if last else sensor
        for number in range(length):
            last = graph.add(f"a{here}_{number}", "add", last, sensor, on=here)
        if here < platforms - 1:
            last = graph.link(str(here), graph.add(f"d{here}", "delay", last, d=3 * FAR, on=here), here, here + 1)
    graph.actuator("out", last, on=platforms - 1)
    return graph


def platforms_in_a_ring(platforms=16, tags=20, rounds=20):
    """A ring of platforms in which many events go round."""
    graph = Graph(platforms, clock_error=5)
    step = UNTIL // (platforms * rounds)
    first = graph.sensor("s", range(1000, 1000 + tags))
    last = graph.add("m", "merge", first, f"r{platforms - 1}", n=2)
    for here in range(platforms):
        last = graph.link(str(here), graph.add(f"d{here}", "delay", last, d=step, on=here), here, (here + 1) % platforms)
    return graph


def platforms_quiet(platforms=16, tags=8000):
    """One platform acts at each tag, and all others have nothing to do, but have a reading of their own now and then."""
    graph = Graph(platforms)
    for here in range(platforms):
        times = range(10 + here, 10 * tags, 10) if here == 0 else range(10 + here, 10 * tags, 10 * tags // 5)
        graph.add(f"c{here}", "count", graph.sensor(f"s{here}", times, on=here), on=here)
    return graph


def platforms_with_decoys(platforms=16, chain=12, decoys=12, tags=100):
    """On each platform a chain, and decoys that wait for a link."""
    graph = Graph(platforms)
    for here in range(platforms):
        sensor = last = graph.sensor(f"s{here}", every_1000(tags), on=here)
        one = graph.sensor(f"one{here}", [1], on=here)
        for number in range(chain):
            last = graph.add(f"a{here}_{number}", "add", last, sensor, on=here)
        late = graph.link(str(here), one, here, (here + 1) % platforms, slack=FAR)
        there = (here + 1) % platforms
        for number in range(decoys):
            graph.add(f"q{there}_{number}", "add", late, f"one{there}", on=there)
    return graph


def links_between_two(links=60, tags=150):
    """As many links as a graph may have, all with messages at the same times: more than a link holds."""
    graph = Graph(2)
    sensor = graph.sensor("s", range(1, tags + 1), bound=FAR, seen=lambda time: FAR)
    for number in range(links):
        graph.add(f"c{number}", "count", graph.link(str(number), sensor, 0, 1, slack=2 * FAR), on=1)
    return graph


SHAPES = {name: value for name, value in list(globals().items()) if inspect.isfunction(value) and
          name not in ("every_1000", "joined_chain", "token", "joined")} | FOUND


def sizes_of(shape):
    """The sizes of a shape and their numbers, if no others are named."""
    return {name: size.default for name, size in inspect.signature(SHAPES[shape]).parameters.items()}


def sizes_given(word):
    """A shape and its sizes of a word SHAPE[:SIZE=NUMBER,..]; ends with one line if there is no such shape or size."""
    name, _, given = word.partition(":")
    if name not in SHAPES:
        sys.exit(f"there is no shape {name}; python3 bench/worst_shapes.py lists them")
    sizes = sizes_of(name)
    for change in given.split(",") if given else []:
        size, _, number = change.partition("=")
        if size not in sizes or not number.isdecimal():
            sys.exit(f"{name} has the sizes {', '.join(sizes)}, each a number: {change}")
        sizes[size] = int(number)
    return name, sizes


def main():
    if len(sys.argv) == 1:
        for name, shape in SHAPES.items():
            sizes = " ".join(f"{size}={number}" for size, number in sizes_of(name).items())
            print(f"{name:22} {sizes:36} {inspect.getdoc(shape)}")
        return
    if len(sys.argv) < 3:
        sys.exit("usage: worst_shapes.py [SHAPE FOLDER [SIZE=NUMBER..]]")
    name, sizes = sizes_given(":".join([sys.argv[1], ",".join(sys.argv[3:])]))
    SHAPES[name](**sizes).write(sys.argv[2])


if __name__ == "__main__":
    main()
