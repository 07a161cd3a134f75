"""Called by test-long.sh, whose head says what it does: test-long.py PROGRAM FOLDER."""
import filecmp
import json
import os
import resource
import subprocess
import sys

TOOLS = os.path.dirname(os.path.abspath(__file__))
# What a run of 10 million firings may take: seconds of processor time, and MB.
MOST_SECONDS, MOST_MEMORY = 6, 800
MEASURE = """
import os, resource, subprocess, sys
with open(sys.argv[1], "wb") as output, open(sys.argv[2], "wb") as notes:
    status = subprocess.call(sys.argv[3:], stdin=subprocess.DEVNULL, stdout=output, stderr=notes)
used = resource.getrusage(resource.RUSAGE_CHILDREN)
print(status, used.ru_utime + used.ru_stime, used.ru_maxrss // 1024)
"""


class Long:
    """Commands in a folder, which are measured; what they write goes to files there."""

    def __init__(self, program, folder):
        self.program, self.folder = program, folder
        self.passed = self.failed = 0

    def path(self, name):
        return os.path.join(self.folder, name)

    def expect(self, what, is_so):
        self.passed += is_so
        self.failed += not is_so
        if not is_so:
            print(f"failed: {what}", flush=True)

    def call(self, what, name, command, status=0):
        """Runs a command; its output is the file of that name. Gives its processor time and its memory in MB."""
        measured = [sys.executable, "-c", MEASURE, self.path(name), self.path("notes"), *command]
        found, seconds, memory = subprocess.run(measured, cwd=self.folder, stdout=subprocess.PIPE, check=True, text=True).stdout.split()
        print(f"{what:<44} {float(seconds):7.1f} s {int(memory):6,} MB {os.path.getsize(self.path(name)) / 1e6:9.1f} MB written", flush=True)
        self.expect(f"{what}: status {found}, {self.first_note()}", int(found) == status)
        return float(seconds), int(memory)

    def first_note(self):
        with open(self.path("notes"), encoding="utf-8", errors="replace") as file:
            return file.readline().rstrip()

    def ptides(self, what, name, *words, status=0):
        return self.call(what, name, [self.program, *map(str, words)], status)

    def companion(self, what, name, *words, status=0):
        os.environ["PTIDES"] = self.program
        return self.call(what, name, [sys.executable, os.path.join(TOOLS, f"ptides-{name}"), *map(str, words)], status)

    def same(self, what, one, other):
        self.expect(f"{what}: not the same bytes", filecmp.cmp(self.path(one), self.path(other), shallow=False))

    def begins(self, what, long, short):
        """Whether a file begins with another one, and `log` follows."""
        with open(self.path(long), "rb") as one, open(self.path(short), "rb") as other:
            is_so = all(one.read(len(block)) == block for block in iter(lambda: other.read(1 << 20), b""))
            self.expect(f"{what}: the tables are others", is_so and one.read(4) == b"log\n")

    def lines(self, name):
        with open(self.path(name), "rb") as file:
            return sum(block.count(b"\n") for block in iter(lambda: file.read(1 << 20), b""))

    def write_graph(self, until, platforms, actors, links=()):
        """A graph whose actors are one chain on each platform, in which the first of a platform after the first receives."""
        wires = [[one["name"], 0, other["name"], 0] for one, other in zip(actors, actors[1:]) if one["platform"] == other["platform"]]
        graph = {"ptides": 1, "until": until, "clock_error": 5, "platforms": platforms, "actors": actors, "wires": wires, "links": list(links)}
        with open(self.path("graph.json"), "w", encoding="ascii") as file:
            json.dump(graph, file)


def shifts(platform, count, first=0):
    return [{"name": f"by_{number}", "platform": platform, "kind": "shift", "by": 1} for number in range(first, first + count)]


def ten_million(long):
    """A chain of 10 actors with 1,000,000 ticks."""
    clock = {"name": "tick", "platform": "p", "kind": "every", "start": 0, "period": 100}
    long.write_graph(10**8 - 1, ["p"], [clock, *shifts("p", 8), {"name": "out", "platform": "p", "kind": "actuator", "slack": 1000}])
    with open(long.path("air.csv"), "w", encoding="ascii") as file:
        file.write("what,name,value\n")
    claims = ("--claims", 10**7)
    seconds, memory = long.ptides("run, 10 million firings", "tables", "run", "graph.json", *claims)
    long.expect(f"run takes more than {MOST_SECONDS} s", seconds <= MOST_SECONDS)
    long.expect(f"run takes more than {MOST_MEMORY} MB", memory <= MOST_MEMORY)
    long.expect("1,000,000 events", long.lines("tables") == 10**6 + 1)
    long.ptides("meaning", "other", "meaning", "graph.json", *claims)
    long.same("meaning", "other", "tables")
    long.ptides("replay", "other", "replay", "graph.json", "air.csv", *claims)
    long.same("replay", "other", "tables")
    long.ptides("run --clock step", "other", "run", "graph.json", "--clock", "step:0:100000", *claims, status=5)
    long.same("run --clock step", "other", "tables")
    long.ptides("run --log", "log", "run", "graph.json", "--log", *claims)
    long.begins("run --log", "log", "tables")
    long.ptides("audit of the log", "other", "audit", "graph.json", "log", *claims)
    os.remove(long.path("log"))
    for command in (["run", "graph.json"], ["meaning", "graph.json"], ["replay", "graph.json", "air.csv"]):
        long.ptides(f"{command[0]}, with one claim less", "other", *command, "--claims", 10**7 - 1, status=6)


def write_rows(long, count, period):
    with open(long.path("s.csv"), "w", encoding="ascii") as file:
        file.write("time,seen,value\n")
        file.writelines(f"{row * period},{row * period + row % 9},{row % 1000}\n" for row in range(count))


SENSOR = {"name": "s", "platform": "p", "kind": "sensor", "file": "s.csv", "bound": 10}


def a_million_rows(long):
    """A sensor and an actuator."""
    write_rows(long, 10**6, 10_000)
    long.write_graph(10**10, ["p"], [SENSOR, {"name": "out", "platform": "p", "kind": "actuator", "slack": 1000}])
    long.ptides("run, 1,000,000 rows", "tables", "run", "graph.json", "--claims", 2 * 10**6)
    long.expect("1,000,000 events", long.lines("tables") == 10**6 + 1)
    long.ptides("meaning, 1,000,000 rows", "other", "meaning", "graph.json", "--claims", 2 * 10**6)
    long.same("meaning", "other", "tables")


def a_day(long):
    """At 1 Hz, with 15 actors on one platform: what `explain` says fits, fits."""
    write_rows(long, 86_400, 10**6)
    long.write_graph(86_400 * 10**6, ["p"], [SENSOR, *shifts("p", 13), {"name": "out", "platform": "p", "kind": "actuator", "slack": 1000}])
    long.companion("explain, a day at 1 Hz", "explain", "graph.json", status=6)
    with open(long.path("explain"), encoding="utf-8") as file:
        long.expect("explain names the number of claims", "with `--claims 1296000` the whole run fits" in file.read())
    long.ptides("run, a day at 1 Hz", "tables", "run", "graph.json", "--claims", 1_296_000)
    long.expect("86,400 events", long.lines("tables") == 86_401)
    long.companion("lint, a day at 1 Hz", "lint", "graph.json", "--claims", 1_296_000)


def an_hour(long):
    """At 100 Hz, with 10 actors on 3 platforms, from a log of candump to waves."""
    with open(long.path("drive.log"), "w", encoding="ascii") as file:
        file.writelines(f"({1764320400 + row // 100}.{row % 100 * 10_000 + row % 9:06}) can0 123#{row % 251:02X}\n" for row in range(360_000))
    actors = [SENSOR, *shifts("p", 2), {"name": "w0", "platform": "p", "kind": "send", "slack": 100}]
    actors += [{"name": "r0", "platform": "q", "kind": "receive"}, *shifts("q", 1, 2), {"name": "w1", "platform": "q", "kind": "send", "slack": 1000}]
    actors += [{"name": "r1", "platform": "r", "kind": "receive"}, *shifts("r", 1, 3), {"name": "out", "platform": "r", "kind": "actuator", "slack": 5000}]
    links = [{"from": "w0", "to": "r0", "delay": 200}, {"from": "w1", "to": "r1", "delay": 200}]
    long.write_graph(3_600 * 10**6, ["p", "q", "r"], actors, links)
    claims = ("--claims", 4 * 360_000)
    words = ["candump", "drive.log", "--id", "123", "--bytes", "0:1", "--period", 10_000, "--phase", 0]
    long.companion("rows, an hour at 100 Hz", "rows", *words, *claims, "-o", "s.csv")
    long.ptides("run, an hour at 100 Hz", "tables", "run", "graph.json", *claims)
    long.expect("360,000 events", long.lines("tables") == 360_001)
    long.companion("wave, a minute of it", "wave", "graph.json", "--from", 0, "--to", 60 * 10**6, "--vcd", "minute.vcd", *claims)
    long.companion("wave, all of it", "wave", "graph.json", "--vcd", "hour.vcd", *claims)
    long.expect("the waves have all events", long.lines("hour.vcd") > 10 * 360_000)


def main():
    program, folder = sys.argv[1:]
    resource.setrlimit(resource.RLIMIT_CORE, (0, 0))
    long = Long(program, folder)
    for part in (ten_million, a_million_rows, a_day, an_hour):
        part(long)
    print(f"{long.passed} passed, {long.failed} failed")
    return int(long.failed > 0)


if __name__ == "__main__":
    sys.exit(main())
