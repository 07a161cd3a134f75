"""Called by worst.sh, whose head says what it does: worst.py FOLDER PTIDES [growth] [ROUNDS] [SHAPE[:SIZE=NUMBER,..]..]."""
import os
import random
import sys

import worst_calls
import worst_shapes
from worst_calls import CALLS, GOALS, MORE, PLAIN, UNITS, Place
from worst_files import LOG_CHANGES

TEN = 10


class Shape:
    """What was measured of a shape, in one of its forms, and of the changed logs of its run."""

    def __init__(self, program, folder, word, form, rounds, calls=CALLS):
        self.name, self.sizes = worst_shapes.sizes_given(word)
        graph = worst_shapes.SHAPES[self.name](**self.sizes)
        if form == "shuffled":
            graph = graph.shuffled(random.Random(1))
        self.form, self.program, self.folder, self.graph = form, program, folder, graph
        self.place = Place(program, folder, graph)
        self.figures = self.place.figures(rounds, calls)

    def change_logs(self, rounds):
        """Has each kind of changed log of the run judged, and adds what that costs."""
        audit, check = next(call for call in CALLS if call.name == "audit"), self.figures["check"].cost
        for change in LOG_CHANGES:
            self.place.write_log([change], random.Random(1))
            name = f"audit, {change.replace('_', ' ')}"
            self.figures[name] = self.place.figure(audit._replace(name=name), rounds, {"check": check})

    def __str__(self):
        return f"`{self.name}`{', shuffled' if self.form == 'shuffled' else ''}"


def cell(value, places=1):
    return "-" if value is None else f"{value:,.{places}f}" if isinstance(value, float) else f"{value:,}" if isinstance(value, int) else value


def row(*cells):
    print("| " + " | ".join(cells) + " |", flush=True)


def in_short(figure):
    """The cost of a call in a cell: for each event or byte, and otherwise in ms; the status if it wrote no result."""
    if figure.cost.ms is None:
        return "ended"
    if figure.cost.status not in (0, 5) and (figure.call.words[0] != "audit" or figure.cost.status != 10):
        return f"({figure.cost.status})" if figure.rate is None else f"{cell(figure.rate)} ({figure.cost.status})"
    return cell(figure.rate) if figure.call.by else f"{figure.cost.ms:,.0f}"


def show(shape):
    figures = shape.figures
    pairs = [f"{in_short(figures[plain.name])}, {in_short(figures[more.name])}" for plain, more in zip(PLAIN, MORE)]
    logs = [figures[name] for name in figures if name.startswith("audit, ") and name != MORE[-1].name]
    pairs.append(in_short(max(logs, key=lambda figure: figure.rate or 0)))
    begin = [in_short(figures[name]) for name in ("check", "migrate", "slacks")]
    units = sum(len(actor.get("cells", [0])) for actor in shape.graph.actors)
    row(str(shape), cell(units), cell(len(shape.graph.platforms)), cell(shape.place.events), *pairs, *begin, cell(max(figure.cost.size for figure in figures.values()), 0))


def head():
    row("Shape", "Units", "Platforms", "Events", "`run` us", "by steps us", "by machine ms", "`meaning` us", "`replay` us", "`audit` ns", "changed logs ns",
        "`check` ms", "`migrate` ms", "`slacks` ms", "most MB")
    print("|" + "---|" * 15)


def show_worst(found):
    """The calls that cost most beside their goals, and all that are beyond."""
    figures = sorted(((figure.times(), str(shape), figure) for shape in found for figure in shape.figures.values()), key=lambda it: -it[0])
    print(f"\nThe {TEN} calls that cost most beside their goals:\n")
    for times, name, figure in figures[:TEN]:
        if times > 0:
            print(f"- {name}, {figure.told()}")
    beyond = sum(times > 1 for times, _, _ in figures)
    print(f"\n{beyond} of {len(figures)} calls are beyond their goals, {sum(times > worst_calls.BEYOND for times, _, _ in figures)} more than {worst_calls.BEYOND} times")


def grow(program, folder, word, rounds):
    """Shows how the events, and what `run` takes for each, grow if one size after another is doubled."""
    calls = [call for call in CALLS if call.name in ("check", "migrate", "run")]
    base = Shape(program, folder, word, "made", rounds, calls)
    changes = []
    for size, number in base.sizes.items():
        others = ",".join(f"{name}={value if name != size else 2 * value}" for name, value in base.sizes.items())
        other = Shape(program, folder, f"{base.name}:{others}", "made", rounds, calls)
        before, after = base.figures["run"], other.figures["run"]
        if before.rate and after.rate and base.place.events and other.place.events:
            changes.append(f"{size} {number} to {2 * number}: events x {other.place.events / base.place.events:.2f}, us an event x {after.rate / before.rate:.2f}")
        else:
            why = {2: "not lawful", 6: "more than 200,000 claims", 0: "too short to say"}.get(after.cost.status, f"status {after.cost.status}")
            changes.append(f"{size} {number} to {2 * number}: {why}")
    print(f"{base.name}: {cell(base.place.events)} events, {cell(base.figures['run'].rate)} us an event; {'; '.join(changes)}", flush=True)


def main():
    folder, program, *words = sys.argv[1:]
    is_growth = words[:1] == ["growth"]
    words = words[is_growth:]
    rounds = int(words.pop(0)) if words and words[0].isdecimal() else 3
    words = words or list(worst_shapes.SHAPES)
    for word in words:
        worst_shapes.sizes_given(word)
    if is_growth:
        for number, word in enumerate(words):
            grow(program, os.path.join(folder, str(number)), word, rounds)
        return
    goals = " and ".join(f"{goal:.0f} {UNITS[by]}" for by, goal in GOALS.items())
    print(f"{program}: processor time, the least of {rounds} runs or one of more than a second, less that of `check`; the goals are {goals}. Of two numbers "
          f"the second is with --claims {worst_calls.CLAIMS}. In brackets is the status; memory is the greatest resident set.\n")
    print(f"{worst_calls.make_figure(program, rounds).told()}\n")
    head()
    found = []
    for word in words:
        for form in ("made", "shuffled"):
            found.append(Shape(program, os.path.join(folder, "graph"), word, form, rounds))
            found[-1].change_logs(rounds)
            show(found[-1])
    show_worst(found)


if __name__ == "__main__":
    main()
