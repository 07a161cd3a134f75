"""Shapes that a search found, each of which once made one command slow: worst_shapes.py lists them with its own."""
from hard_graph import FAR, LONGEST, Graph


def joined(graph, name, sources):
    """All sources, joined by merges of eight to one."""
    number = 0
    while len(sources) > 1:
        group, sources = sources[:8], sources[8:]
        sources.append(graph.add(f"{name}{number}", "merge", *group, n=len(group)))
        number += 1
    return sources[0]


def ends_waiting(links=60, ticks=5000, rows=5000):
    """A closed platform waits for the end of one more link, and has taken many messages of another."""
    graph = Graph(4, until=max(ticks, rows))
    never = graph.add("never", "every", on=1, start=ticks + 1, period=1)
    for number in range(links):
        graph.link(str(number), never, 1, 0, delay=1, slack=0)
    graph.link("e", graph.add("e", "every", on=2, start=1, period=1), 2, 0, delay=1, slack=0)
    late = graph.add("late", "delay", graph.sensor("s", range(1, rows + 1), bound=FAR, on=3, seen=lambda time: 2 * ticks + 10 * time), on=3, d=FAR + 5)
    graph.link("z", late, 3, 0, delay=1, slack=0)
    return graph


def clocks_apart(platforms=2, ticks=12000):
    """A ring of platforms that send at each tick; by its recording one clock is as far behind as it can be."""
    graph = Graph(platforms, clock_error=LONGEST, until=1000 * ticks)
    for here in range(platforms):
        graph.link(str(here), graph.add(f"e{here}", "every", on=here, start=here, period=1000), here, (here + 1) % platforms, delay=0, slack=LONGEST)
    graph.air = [("lag", f"p{platforms - 1}", LONGEST)]
    return graph


def claim_left_open(waiting=400, rows=1000):
    """A log in which a result that many units wait for is never posted, and in each turn after its claim a row comes."""
    graph = Graph(until=FAR)
    graph.sensor("z", range(1, rows + 1), bound=LONGEST)
    root = graph.add("root", "every", start=0, period=LONGEST)
    held = graph.add("h", "shift", root, by=1)
    waits = [graph.add(f"w{number}", "merge", held, root, "far", n=3) for number in range(waiting)]
    graph.add("far", "delay", joined(graph, "m", waits), d=LONGEST)
    turn = "turn,p0,{0},{0},1\n".format
    lines = ["actuator,time,step,value\nlog\n", turn(0), "claim,0,root,0,0\n", turn(0), "post,0\nclaim,1,h,0,0\n"]
    for time, seen, value in graph.rows["z"]:
        lines += [turn(seen), f"row,z,{time},{seen},{value}\n", turn(seen)]
    graph.log = "".join(lines)
    return graph


def readers_behind_a_delay(merges=511, period=1):
    """An event at each tick waits very long for eight readers of each merge, and the meaning is too long."""
    graph = Graph(until=10 * 10**12)
    far = graph.add("far", "delay", graph.add("e", "every", start=0, period=period), d=10**12)
    for number in range(merges):
        graph.add(f"m{number}", "merge", *[far] * 8, n=8)
    return graph


def delays_to_nothing(width=470, rows=40):
    """Delays from one output, whose events all wait at once and give nothing; a path leads back from each to all."""
    graph = Graph(until=FAR)
    graph.add("x", "merge", graph.sensor("s", range(1, 10_000 * rows, 10_000), bound=FAR // 10), "far", n=2)
    delays = [graph.add(f"d{number}", "delay", "x", d=width - number) for number in range(width)]
    mute = [graph.add(f"w{number}", "above", delay, limit=2**63 - 1) for number, delay in enumerate(delays)]
    graph.add("far", "delay", joined(graph, "m", mute), d=LONGEST)
    graph.start = 2 * FAR
    return graph


def sends_held_back(links=60, ticks=500):
    """Messages on as many links as a graph may have, at each tick; a log may send them all at the end, link by link."""
    graph = Graph(2, until=ticks)
    tick = graph.add("e", "every", start=1, period=1)
    for number in range(links):
        graph.link(str(number), tick, 0, 1, delay=0, slack=0)
    return graph


FOUND = {shape.__name__: shape for shape in (ends_waiting, clocks_apart, claim_left_open, readers_behind_a_delay, delays_to_nothing, sends_held_back)}
