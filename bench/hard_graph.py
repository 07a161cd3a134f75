"""A graph that is built actor by actor and written with its files, for worst_shapes.py and worst_found.py."""
import copy
import json
import os
import random

# Later than anything that happens before the end, as a bound and as a slack.
FAR = 10**9
UNTIL = 10**12
# The greatest time that a file can have.
LONGEST = 10**15
# By the machine's clock a run lasts as long as its horizon and its bounds, so there they are cut to these, in microseconds.
SOON_UNTIL = 200_000
SOON = {"bound": 20_000, "slack": 50_000, "delay": 20_000}


class Graph:
    """A graph that is built actor by actor. An output is a name, or a name and a number.

    `air` has the rows of an air file; `log`, if it is a text, is a log to be judged in place of that of a run."""

    def __init__(self, platforms=1, clock_error=0, until=UNTIL):
        self.platforms, self.clock_error, self.until = [f"p{n}" for n in range(platforms)], clock_error, until
        self.actors, self.wires, self.links, self.rows = [], [], [], {}
        self.air, self.log, self.start = [], None, 0

    def add(self, name, kind, *inputs, on=0, **members):
        self.actors.append({"name": name, "platform": f"p{on}", "kind": kind, **members})
        for port, source in enumerate(inputs):
            self.wire(source, name, port)
        return name

    def wire(self, source, name, port):
        source, output = source if isinstance(source, tuple) else (source, 0)
        self.wires.append([source, output, name, port])

    def sensor(self, name, times, bound=0, on=0, seen=None):
        self.rows[name] = [(time, seen(time) if seen else time, number) for number, time in enumerate(times)]
        return self.add(name, "sensor", on=on, file=f"{name}.csv", bound=bound)

    def actuator(self, name, source, on=0):
        return self.add(name, "actuator", source, on=on, slack=UNTIL)

    def link(self, name, source, here, there, delay=40, slack=FAR):
        """Sends what `source` gives to another platform, and gives the receiver there."""
        self.add(f"w{name}", "send", source, on=here, slack=slack)
        self.links.append({"from": f"w{name}", "to": f"r{name}", "delay": delay})
        return self.add(f"r{name}", "receive", on=there)

    def text(self):
        """What the graph file says."""
        return {"ptides": 2, "until": self.until, "clock_error": self.clock_error, "clock_errors": [], "platforms": self.platforms,
                "actors": self.actors, "wires": self.wires, "links": self.links}

    def step(self):
        """The clock by steps: it passes the horizon and all bounds in 2,000 steps, or begins past them where the shape says so."""
        last = max([self.until] + [it.get(member, 0) for it in self.actors + self.links for member in ("bound", "slack", "delay")])
        return f"step:{self.start}:{max(1, last // 2000)}"

    def recorded(self, dice):
        """An air file for the graph, unless it has one: lags within the clock error, and transits within the delays."""
        if not self.air:
            self.air = [("lag", name, number and dice.randint(0, self.clock_error)) for number, name in enumerate(self.platforms)]
            self.air += [("transit", link["from"], dice.randint(0, link["delay"])) for link in self.links for _ in range(100)]
        return self

    def shuffled(self, dice):
        """The same graph with its actors and wires in another order in the file."""
        other = copy.deepcopy(self)
        dice.shuffle(other.actors)
        dice.shuffle(other.wires)
        return other

    def hastened(self):
        """The graph with short times and an early end, for a run by the machine's clock."""
        other = copy.deepcopy(self)
        other.until = min(other.until, SOON_UNTIL)
        other.clock_error = min(other.clock_error, SOON["bound"])
        for it in other.actors + other.links:
            for member in SOON.keys() & it.keys():
                it[member] = min(it[member], SOON[member])
        bounds = {actor["name"]: actor["bound"] for actor in other.actors if actor["kind"] == "sensor"}
        other.rows = {name: [(time, min(seen, time + bounds[name]), value) for time, seen, value in rows if time <= other.until]
                      for name, rows in other.rows.items()}
        return other

    def write(self, folder):
        os.makedirs(folder, exist_ok=True)
        with open(os.path.join(folder, "graph.json"), "w", encoding="ascii") as file:
            json.dump(self.text(), file)
        for name, rows in self.rows.items():
            write_rows(os.path.join(folder, name + ".csv"), "time,seen,value", rows)
        write_rows(os.path.join(folder, "network.air"), "what,name,value", self.recorded(random.Random(1)).air)


def write_rows(path, head, rows):
    with open(path, "w", encoding="ascii") as file:
        file.write(head + "\n")
        file.writelines(",".join(map(str, row)) + "\n" for row in rows)
