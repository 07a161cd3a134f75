"""The meaning of a graph, computed from docs/MEANING.md and docs/FORMATS.md and not by ptides."""
import collections
import heapq

LEAST, GREATEST = -2**63, 2**63 - 1
BLOCKS = {"least": min, "greatest": max, "clip100": lambda a, b: max(-100, min(100, a)), "dead5": lambda a, b: 0 if abs(a - b) <= 5 else nearest(a - b),
          "mean": lambda a, b: toward_zero(a + b, 2)}


class TooLong(Exception):
    """There are more firings than were asked for."""


def nearest(number):
    """The nearest number of 64 bits."""
    return max(LEAST, min(GREATEST, number))


def toward_zero(number, divisor):
    return number // divisor if number >= 0 else -(-number // divisor)


def fired(actor, state, inputs):
    """What an actor does with its state and its inputs, by their ports: the new state, and the outputs by their ports."""
    kind, a, b = actor["kind"], inputs.get(0), inputs.get(1)
    one, two = a or 0, b or 0
    if kind in ("sensor", "receive", "send", "actuator", "delay"):
        return state, {0: a}
    if kind == "scale":
        return state, {0: nearest(toward_zero(a * actor["num"], actor["den"]))}
    if kind in ("shift", "add", "sub"):
        return state, {0: nearest({"shift": lambda: a + actor["by"], "add": lambda: one + two, "sub": lambda: one - two}[kind]())}
    if kind == "above":
        return state, {0: a} if a > actor["limit"] else {}
    if kind == "merge":
        return state, {0: inputs[min(inputs)]}
    if kind in ("count", "sum"):
        state = nearest(state + (1 if kind == "count" else a))
        return state, {0: state}
    if kind == "latch":
        state = state if a is None else a
        return state, {} if b is None else {0: state}
    if kind == "every":
        return state + 1, {0: state}
    if kind == "block":
        return state, {0: BLOCKS[actor["block"]](one, two)}
    return machine(actor, state, a) if kind == "machine" else (state, lanes(actor, inputs))


def machine(actor, state, a):
    for row in actor["rows"]:
        if row["state"] == state and row["low"] <= a <= row["high"] and ("guard" not in row or BLOCKS[row["guard"]](a, state) > 0):
            return row["next"], {row["emit"][0]: row["emit"][1]} if row["emit"] else {}
    return state, {}


def lanes(actor, inputs):
    outputs, first = {}, 0
    for cell, count in enumerate(actor["cells"]):
        present = [inputs[port] for port in range(first, first + count) if port in inputs]
        if present:
            outputs[cell] = nearest(sum(present))
        first += count
    return outputs


class Meaning:
    """The list of firings of a graph, each with its actor, the cell of `lanes`, time and step, up to a number of them."""

    def __init__(self, graph, rows, most):
        self.until, self.most = graph["until"], most
        self.actors = {actor["name"]: actor for actor in graph["actors"]}
        self.edges = collections.defaultdict(list)
        for source, output, target, port in graph["wires"]:
            self.edges[source, output].append((target, port))
        for link in graph["links"]:
            self.edges[link["from"], 0].append((link["to"], 0))
        self.ranks = self.ranks_of()
        # What waits, by tag and then by actor and port; and the tags, with the least first.
        self.waiting, self.tags, self.firings, self.events = {}, [], [], collections.defaultdict(list)
        self.states = {name: actor.get("start", 0) if actor["kind"] == "machine" else 0 for name, actor in self.actors.items()}
        for name, actor in self.actors.items():
            if actor["kind"] == "every":
                self.wait((actor["start"], 0), name, 0, 0)
            for time, _, value in rows.get(name, []):
                self.wait((time, 0), name, 0, value)
        while self.tags:
            self.step(heapq.heappop(self.tags))

    def ranks_of(self):
        """The number of edges on the longest path of no delay that ends at each actor."""
        behind, before = collections.defaultdict(list), collections.Counter()
        for (source, _), targets in self.edges.items():
            if self.actors[source]["kind"] != "delay":
                behind[source] += [target for target, _ in targets]
                before.update(target for target, _ in targets)
        ranks, ready = dict.fromkeys(self.actors, 0), [name for name in self.actors if not before[name]]
        for name in ready:
            for target in behind[name]:
                ranks[target] = max(ranks[target], ranks[name] + 1)
                before[target] -= 1
                ready += [] if before[target] else [target]
        return ranks

    def wait(self, tag, name, port, value):
        if tag[0] <= self.until:
            if tag not in self.waiting:
                self.waiting[tag] = {}
                heapq.heappush(self.tags, tag)
            self.waiting[tag].setdefault(name, {})[port] = value

    def step(self, tag):
        """Fires all actors of a tag, in the order of their ranks."""
        here = self.waiting[tag]
        while here:
            name = min(here, key=self.ranks.get)
            actor, inputs = self.actors[name], here.pop(name)
            self.states[name], outputs = fired(actor, self.states[name], inputs)
            self.firings += [(name, cell, *tag) for cell in (outputs if actor["kind"] == "lanes" else [0])]
            if len(self.firings) > self.most:
                raise TooLong
            if actor["kind"] == "actuator":
                self.events[name].append((*tag, outputs[0]))
            if actor["kind"] == "every":
                self.wait((tag[0] + actor["period"], tag[1]), name, 0, 0)
            to = tag
            if actor["kind"] == "delay":
                to = (tag[0] + actor["d"], tag[1] + (actor["d"] == 0))
            for output, value in outputs.items():
                for target, port in self.edges[name, output]:
                    self.wait(to, target, port, value)
        del self.waiting[tag]

    def tables(self):
        """What `meaning` writes."""
        lines = [f"{name},{time},{step},{value}\n" for name in self.actors if name in self.events for time, step, value in self.events[name]]
        return "actuator,time,step,value\n" + "".join(lines)
