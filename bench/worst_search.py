#!/usr/bin/env python3
"""Looks for inputs on which a command of `ptides` takes long: worst_search.py PROGRAM MINUTES [SEED] [SHAPE..].

It begins with the shapes of worst_shapes.py (all, or those that are named), changes one a little, its graph, its rows, its recording or
the log of its run, measures all commands by all clocks, with and without more claims, and goes on from what costs more beside its goal.
It prints what is more than three times a goal as soon as it is found. At the end it writes the worst inputs into the folder worst-SEED
here, each with a file `words`.
"""
import copy
import os
import random
import shutil
import sys
import tempfile
import time

import worst_shapes
from hard_graph import FAR
from worst_calls import BEYOND, CALLS, Place
from worst_files import AIR_CHANGES, LOG_CHANGES

MOST_ACTORS = 1024
# Of each call so many inputs are kept.
KEPT = 3


def outputs(graph, platform):
    """The outputs of the actors of a platform, of which a wire can begin at each."""
    found = []
    for actor in graph.actors:
        if actor["platform"] == platform and actor["kind"] not in ("actuator", "send"):
            found += [(actor["name"], port) for port in range(len(actor.get("cells", [0])))]
    return found


def platform_of(graph, name):
    return next(actor["platform"] for actor in graph.actors if actor["name"] == name)


def lead_elsewhere(graph, dice):
    """A wire begins at another output."""
    if graph.wires:
        wire = dice.choice(graph.wires)
        wire[:2] = dice.choice(outputs(graph, platform_of(graph, wire[2])))


def change_a_time(graph, dice):
    """A delay, a bound or a slack becomes another, of an actor or of a link."""
    timed = [it for it in graph.actors + graph.links if {"d", "bound", "slack", "delay"} & set(it)]
    if timed:
        it = dice.choice(timed)
        it[dice.choice([name for name in ("d", "bound", "slack", "delay") if name in it])] = dice.choice([0, 1, 10, 500, 1000, 5000, FAR])


def add_an_actor(graph, dice):
    """An actor joins two outputs, or delays one; a wire that went past it goes through it."""
    if not graph.wires:
        return
    wire = dice.choice(graph.wires)
    platform = platform_of(graph, wire[2])
    name = f"n{len(graph.actors)}_{dice.randrange(10**6)}"
    kind = dice.choice(["add", "shift", "delay", "merge"])
    members = {"shift": {"by": 1}, "delay": {"d": dice.choice([0, 1, 1000, FAR])}, "merge": {"n": 2}}.get(kind, {})
    graph.actors.append({"name": name, "platform": platform, "kind": kind, **members})
    graph.wires.append([wire[0], wire[1], name, 0])
    if kind in ("add", "merge"):
        graph.wires.append([*dice.choice(outputs(graph, platform)), name, 1])
    wire[:2] = [name, 0]


def add_decoys(graph, dice):
    """Some adders wait for a sensor that may come late."""
    here = dice.randrange(len(graph.platforms))
    given = outputs(graph, graph.platforms[here])
    if not given:
        return
    number = dice.randrange(10**6)
    late = graph.sensor(f"late{number}", [], bound=FAR, on=here)
    for k in range(dice.choice([4, 16, 64])):
        graph.add(f"d{number}_{k}", "add", dice.choice(given), late, on=here)


def change_rows(graph, dice):
    """The rows of a sensor are moved, thinned out, or all seen later."""
    if not graph.rows:
        return
    name = dice.choice(sorted(graph.rows))
    rows, change = graph.rows[name], dice.randrange(3)
    if change == 0:
        graph.rows[name] = [(at + 1, seen + 1, value) for at, seen, value in rows]
    elif change == 1:
        graph.rows[name] = rows[:: dice.choice([2, 3])]
    elif rows:
        last = max(seen for _, seen, _ in rows)
        graph.rows[name] = [(at, last, value) for at, _, value in rows]
        for actor in graph.actors:
            if actor["name"] == name:
                actor["bound"] = max(actor["bound"], last)


def reorder(graph, dice):
    """An actor gets another number, or all do."""
    if dice.random() < 0.2:
        dice.shuffle(graph.actors)
    else:
        graph.actors.insert(dice.randrange(len(graph.actors)), graph.actors.pop(dice.randrange(len(graph.actors))))


def start_elsewhere(graph, dice):
    """A clock by steps begins before all rows, or past the horizon."""
    graph.start = dice.choice([0, 2 * FAR, 2 * graph.until])


CHANGES = [lead_elsewhere, change_a_time, add_an_actor, add_decoys, change_rows, reorder, start_elsewhere, *AIR_CHANGES]


class Input:
    """A graph with its rows and its recording, and how the log of its run is changed."""

    def __init__(self, name, graph, log_changes=(), seed=1):
        self.name, self.graph, self.log_changes, self.seed = name, graph, tuple(log_changes), seed
        self.figures = {}

    def changed(self, dice):
        """The same, changed a little."""
        graph, log_changes = copy.deepcopy(self.graph), self.log_changes
        for _ in range(dice.choice([1, 1, 2, 4])):
            dice.choice(CHANGES)(graph, dice)
        if dice.random() < 0.5:
            log_changes = dice.sample(sorted(LOG_CHANGES), dice.choice([0, 1, 1, 2]))
            graph.log = None if dice.random() < 0.5 else graph.log
        return Input(self.name, graph, log_changes, dice.randrange(10**6))

    def measure(self, program, folder, calls):
        """Whether it could be measured: not, if `check` refuses the graph."""
        if len(self.graph.actors) > MOST_ACTORS:
            return False
        place = Place(program, folder, self.graph, self.log_changes, self.seed)
        if place.status == 2:
            return False
        self.figures = place.figures(1, calls)
        return True

    def write(self, program, folder, words):
        Place(program, folder, self.graph, self.log_changes, self.seed)
        with open(os.path.join(folder, "words"), "w", encoding="ascii") as file:
            file.write("\n".join(self.graph.step() if word == "STEP" else word for word in words) + "\n")


class Search:
    """The inputs that cost most so far, a few for each call."""

    def __init__(self, program, folder, calls):
        self.program, self.folder, self.calls = program, folder, calls
        self.kept = {call.name: [] for call in calls}
        self.tried = self.lawful = 0

    def look_at(self, new, parent=None):
        """Measures an input, and keeps it for each call that it costs more than what is kept, in place of what it was made from."""
        self.tried += 1
        if not new.measure(self.program, os.path.join(self.folder, "graph"), self.calls):
            return
        self.lawful += 1
        for name, figure in new.figures.items():
            best = self.kept[name]
            others = [it for it in best if it is not parent]
            worse = [it for it in others if it.figures[name].times() >= figure.times()]
            if parent in best and parent.figures[name].times() >= figure.times() or len(worse) >= KEPT:
                continue
            if figure.times() > BEYOND:
                print(f"{self.tried}: from {new.name}: {figure.told()}", flush=True)
            self.kept[name] = sorted([*others, new], key=lambda it, name=name: -it.figures[name].times())[:KEPT]

    def go_on(self, dice):
        old = dice.choice([it for best in self.kept.values() for it in best])
        self.look_at(old.changed(dice), old)

    def tell(self, home):
        """Writes what cost most for each call, and prints the figures."""
        print(f"{self.tried} inputs tried, {self.lawful} of them lawful. For each call what costs most beside its goal:")
        for call in self.calls:
            if not call.by or not self.kept[call.name]:
                continue
            worst = self.kept[call.name][0]
            figure = worst.figures[call.name]
            if figure.times() == 0:
                print(f"{call.name}: nothing took long enough to say")
                continue
            folder = os.path.join(home, call.name.replace(", ", "-").replace(" ", "-"))
            worst.write(self.program, folder, call.words)
            print(f"{figure.told()}; from {worst.name}, in {os.path.relpath(folder)}{' (beyond)' if figure.times() > BEYOND else ''}")


def arguments():
    """The program, the minutes, the seed and the shapes of the command line; ends with one line if they are wrong."""
    try:
        program, minutes = os.path.abspath(sys.argv[1]), float(sys.argv[2])
        seed = int(sys.argv[3]) if len(sys.argv) > 3 else 1
    except (IndexError, ValueError):
        sys.exit("usage: worst_search.py PROGRAM MINUTES [SEED] [SHAPE..]")
    if not os.access(program, os.X_OK) or os.path.isdir(program):
        sys.exit(f"worst_search.py: {sys.argv[1]} is no program")
    return program, minutes, seed, [worst_shapes.sizes_given(word) for word in sys.argv[4:] or worst_shapes.SHAPES]


def main():
    program, minutes, seed, shapes = arguments()
    dice, end = random.Random(seed), time.monotonic() + 60 * minutes
    with tempfile.TemporaryDirectory() as work:
        search = Search(program, work, CALLS)
        for name, sizes in shapes:
            search.look_at(Input(name, worst_shapes.SHAPES[name](**sizes)))
            if time.monotonic() > end:
                break
        while time.monotonic() < end and any(search.kept.values()):
            search.go_on(dice)
        home = f"worst-{seed}"
        shutil.rmtree(home, ignore_errors=True)
        search.tell(home)


if __name__ == "__main__":
    main()
