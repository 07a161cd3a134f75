"""The calls of `ptides` that worst.py and worst_search.py measure, what each costs, and the goals beside it.

A graph lies in a folder as graph.json with its sensor files, network.air and run.log, and once more with short times in the folder
soon, for the machine's clock."""
import os
import random
import resource
import shutil
import subprocess
import tempfile
from typing import NamedTuple, Optional

from worst_files import changed_log

MOST_SECONDS = 20
# With less a process of some platforms that fire as often as they may is ended, since histories take room before they use it.
MOST_BYTES = 8 * 2**30
# With --claims, and without it.
CLAIMS, USUAL_CLAIMS = 1_000_000, 200_000
# What less time is spent on says little.
LEAST_MS = 5
BEYOND = 3
# The goals: microseconds for an event, and nanoseconds for a byte of a log.
GOALS = {"event": 5.0, "byte": 40.0}
UNITS = {"event": "us an event", "byte": "ns a byte"}


class Call(NamedTuple):
    """A way to call the program: its words, and what its time is divided by: the events, the bytes of the log, or nothing.

    Of its time that of another command is taken off, which begins with the same graph in the same way."""
    name: str
    words: tuple
    by: Optional[str] = None
    less: str = "check"
    folder: str = "."
    claims: bool = False


BEGIN = [Call("check", ("check", "graph.json")), Call("migrate", ("migrate", "graph.json")), Call("slacks", ("slacks", "graph.json"))]
PLAIN = [Call("run", ("run", "graph.json"), "event"),
         Call("run by steps", ("run", "graph.json", "--clock", "STEP"), "event"),
         Call("run by machine", ("run", "graph.json", "--clock", "machine"), folder="soon"),
         Call("meaning", ("meaning", "graph.json"), "event", "migrate"),
         Call("replay", ("replay", "graph.json", "network.air"), "event"),
         Call("audit", ("audit", "graph.json", "run.log"), "byte")]
MORE = [call._replace(name=call.name + ", more claims", words=(*call.words, "--claims", str(CLAIMS)), claims=True) for call in PLAIN]
CALLS = BEGIN + PLAIN + MORE
MAKE = Call("make", ("make", "100"), "event")


class Cost(NamedTuple):
    """The processor time of a run in ms, or None if it was ended; the peak of its resident set in MB; its status."""
    ms: Optional[float]
    size: float
    status: Optional[int]


def limit():
    resource.setrlimit(resource.RLIMIT_CPU, (MOST_SECONDS, MOST_SECONDS))
    resource.setrlimit(resource.RLIMIT_AS, (MOST_BYTES, MOST_BYTES))


def once(words, folder="."):
    """What one run costs.

    /usr/bin/time, which adds about a millisecond, reports the memory: of a process that Python starts wait4 may give Python's own."""
    with tempfile.TemporaryFile() as notes:
        process = subprocess.Popen(["/usr/bin/time", "-q", "-f", "%M", *words], stdin=subprocess.DEVNULL, stdout=subprocess.DEVNULL, stderr=notes,
                                   cwd=folder, preexec_fn=limit)
        _, status, usage = os.wait4(process.pid, 0)
        process.returncode = os.waitstatus_to_exitcode(status)
        notes.seek(0)
        size = int(notes.read().split()[-1]) / 1024
    if not 0 <= process.returncode < 128:
        return Cost(None, size, None)
    return Cost((usage.ru_utime + usage.ru_stime) * 1000, size, process.returncode)


def least(words, folder, rounds):
    """The run with the least processor time of some; one that takes a second is made once."""
    best = once(words, folder)
    for _ in range(rounds - 1):
        if best.ms is None or best.ms > 1000:
            break
        best = min(best, once(words, folder), key=lambda cost: float("inf") if cost.ms is None else cost.ms)
    return best


class Figure(NamedTuple):
    """What a call costs beside its goal; `rate` is None if it has none, or the call took too little to say."""
    call: Call
    cost: Cost
    rate: Optional[float]

    def times(self):
        """The cost as a multiple of the goal; a call that was ended, or for which memory ran out, is beyond each."""
        if self.cost.ms is None or self.cost.status == 9:
            return float("inf")
        return self.rate / GOALS[self.call.by] if self.rate is not None else 0.0

    def told(self):
        if self.cost.ms is None:
            return f"{self.call.name}: more than {MOST_SECONDS} s"
        if self.cost.status == 9:
            return f"{self.call.name}: more than {MOST_BYTES >> 30} GB"
        return (f"{self.call.name}: {self.rate:,.1f} {UNITS[self.call.by]}, {self.times():.1f} times the goal of {GOALS[self.call.by]:.0f}; "
                f"{self.cost.ms:,.0f} ms, {self.cost.size:,.0f} MB")


class Place:
    """A graph with its files in a folder, and how many events a whole run of it has."""

    def __init__(self, program, folder, graph, log_changes=(), seed=1):
        self.program, self.folder, self.graph = program, folder, graph
        shutil.rmtree(folder, ignore_errors=True)
        graph.write(folder)
        graph.hastened().write(os.path.join(folder, "soon"))
        self.events, self.status = self.write_log(log_changes, random.Random(seed))

    def write_log(self, changes, dice):
        """Writes the log: that of the shape, or of the run, changed. Of a run that ends otherwise no events are known, but if it is too long."""
        path = os.path.join(self.folder, "run.log")
        with open(path, "w+b") as file:
            done = subprocess.run([self.program, "run", "graph.json", "--log"], stdin=subprocess.DEVNULL, stdout=file, stderr=subprocess.DEVNULL,
                                  cwd=self.folder, preexec_fn=limit, check=False)
            file.seek(0)
            data = file.read()
        events = None
        if done.returncode in (0, 5):
            events = sum(data.count(b"\n" + word) for word in (b"claim,", b"row,", b"take,"))
        if self.graph.log is not None:
            data = self.graph.log.encode("ascii")
        with open(path, "wb") as file:
            file.write(changed_log(data, changes, dice))
        return events, done.returncode

    def parts(self, call, cost):
        """By what the time of a call is divided, in events or bytes; None if that isn't known. A run that is too long had its limit at least."""
        if call.by == "byte":
            return os.path.getsize(os.path.join(self.folder, "run.log")) or None
        if call.by == "event" and cost.status == 6:
            each = CLAIMS if call.claims else USUAL_CLAIMS
            return each * len(self.graph.platforms) if call.words[0] == "meaning" else each
        return self.events if call.by and cost.status in (0, 5) else None

    def figure(self, call, rounds, begun):
        """What a call costs. `begun` has the costs of check and migrate."""
        words = [self.graph.step() if word == "STEP" else word for word in call.words]
        cost = least([self.program, *words], os.path.join(self.folder, call.folder), rounds)
        parts, before = self.parts(call, cost), begun.get(call.less)
        if not parts or cost.ms is None or cost.ms < LEAST_MS or before is None or before.ms is None:
            return Figure(call, cost, None)
        rate = max(0.0, cost.ms - before.ms) * (1000 if call.by == "event" else 10**6) / parts
        return Figure(call, cost, rate)

    def figures(self, rounds, calls):
        """What each of these calls costs, by its name; check and migrate come first."""
        found = {}
        for call in calls:
            found[call.name] = self.figure(call, rounds, {name: figure.cost for name, figure in found.items()})
        return found


def make_figure(program, rounds):
    """What `make 100` costs for each of its firings."""
    text = subprocess.run([program, *MAKE.words], stdin=subprocess.DEVNULL, capture_output=True, text=True, check=True).stdout
    firings = next(int(line.split()[1]) for line in text.splitlines() if line.startswith("firings "))
    cost = least([program, *MAKE.words], ".", rounds)
    return Figure(MAKE, cost, 1000 * cost.ms / firings if cost.ms is not None else None)
