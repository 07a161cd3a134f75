"""What soak.py and test-replay.py hold the program to: its answers about one graph, judged by what the documents say."""
import collections
import functools
import json
import os
import re
import subprocess

import airs
import margins
import meanings

MOST_SECONDS = 300
# Of a graph with more firings the meaning is the program's alone.
MOST_FIRINGS = 20_000
# What can miss something.
MISSING_KINDS = ("actuator", "send")


class Difference(Exception):
    """What differs, in one line."""


class Result:
    """How a command ended, and what it wrote."""

    def __init__(self, program, folder, words):
        self.words = words
        try:
            done = subprocess.run([program, *words], cwd=folder, stdin=subprocess.DEVNULL, capture_output=True, timeout=MOST_SECONDS, close_fds=False)
        except subprocess.TimeoutExpired:
            raise Difference(f"it takes more than {MOST_SECONDS} seconds") from None
        self.status, self.output, self.notes = done.returncode, done.stdout.decode(), done.stderr.decode()
        self.ending = (self.status, self.notes)
        self.whole = (self.status, self.output, self.notes)

    def tables_and_log(self):
        tables, mark, log = self.output.partition("\nlog\n")
        return (tables + "\n", log) if mark else (self.output, None)

    @functools.cached_property
    def claims(self):
        """Each claim of the log, as its line has it, with the reading at which it was made, in order; none if there is no log."""
        found, reading = [], ""
        for line in (self.tables_and_log()[1] or "").splitlines():
            if line.startswith("turn,"):
                reading = line.split(",")[3]
            elif line.startswith("claim,"):
                found.append((reading, line.split(",", 2)[2]))
        return sorted(found)


def expect(what, wanted, found):
    """Raises a difference if the answer, its status, output and notes, isn't the wanted one."""
    for name, one, other in zip(("status", "output", "notes"), wanted, found.whole):
        if one != other:
            raise Difference(f"{what}: the {name} is {other!r:.300}, and not {one!r:.300}")


class Program:
    """The lawful graph of a folder, with its rows and its meaning."""

    def __init__(self, program, folder):
        self.program, self.folder, self.calls, self.statuses = program, folder, 0, collections.Counter()
        self.words = []
        with open(os.path.join(folder, "graph.json"), encoding="ascii") as file:
            self.graph = json.load(file)
        self.actors = {actor["name"]: actor for actor in self.graph["actors"]}
        self.numbers, self.network = margins.Numbers(self.graph), airs.Network(self.graph)
        self.offsets, self.unit_offsets = self.numbers.offsets(), self.numbers.unit_offsets()
        self.bounds = self.numbers.bounds()
        self.rows = {actor["name"]: self.rows_of(actor) for actor in self.graph["actors"] if actor["kind"] == "sensor"}
        late = (self.late_row_of(actor) for actor in self.graph["actors"] if actor["kind"] == "sensor")
        # The line of the first row that is late, in the order of the graph; none if no row is.
        self.late_row = next((line for line in late if line), None)

    def call(self, *words):
        """The answer to a command. The last one is remembered, for the report of a difference."""
        self.words = words
        self.calls += 1
        result = Result(self.program, self.folder, words)
        self.statuses[result.status] += 1
        return result

    def write(self, name, text):
        with open(os.path.join(self.folder, name), "w", encoding="ascii", newline="") as file:
            file.write(text)

    def rows_of(self, sensor):
        with open(os.path.join(self.folder, sensor["file"]), encoding="ascii") as file:
            return [tuple(map(int, line.split(","))) for line in file.read().split("\n")[1:] if line.strip()]

    def late_row_of(self, sensor):
        for number, (time, seen, _) in enumerate(self.rows[sensor["name"]], 1):
            if time <= self.graph["until"] and seen > time + sensor["bound"]:
                return f"late {sensor['name']} row {number}, seen {seen} past {time + sensor['bound']}\n"
        return None

    @functools.cached_property
    def meaning(self):
        """What the command `meaning` says, which is right if the meaning worked out here has the same tables."""
        result = self.call("meaning", "graph.json")
        if result.ending not in ((0, ""), (6, "long meaning\n")):
            raise Difference(f"meaning ends with {result.status}: {result.notes.strip()}")
        if self.firings is not None:
            expect("meaning", (0, self.firings.tables(), ""), result)
        return result

    @functools.cached_property
    def firings(self):
        """The meaning, worked out here; none if it is long."""
        try:
            return meanings.Meaning(self.graph, self.rows, MOST_FIRINGS)
        except meanings.TooLong:
            return None

    @functools.cached_property
    def events(self):
        return {tuple(line.split(",")[:3]) for line in self.meaning.output.splitlines()}

    def judge(self, result, clock):
        """Raises a difference if the run isn't right. Gives whether a message was late."""
        if (result.status == 4 and result.notes == self.late_row) != (self.late_row is not None):
            raise Difference(f"status {result.status}, {result.notes.strip() or 'no notes'}; first late row: {self.late_row}")
        if result.status in (0, 5):
            self.judge_tables(result)
            self.judge_misses(result)
            if clock == "paced":
                self.judge_readings(result)
            return False
        if result.output:
            raise Difference(f"output at status {result.status}")
        if result.status == 4 and self.late_row is None:
            self.judge_late_message(result.notes)
            if clock == "paced":
                raise Difference(f"{result.notes.strip()} under the paced clock")
            return True
        if result.status not in (4, 6) or (result.status == 6 and not re.fullmatch(r"long \w+\n", result.notes)):
            raise Difference(f"status {result.status}, {result.notes.strip() or 'no notes'}")
        if result.status == 6 and self.meaning.status != 6 and "lanes" not in (actor["kind"] for actor in self.graph["actors"]):
            raise Difference(f"{result.notes.strip()}, and meaning ends with {self.meaning.status}")
        return False

    def judge_tables(self, result):
        tables, log = result.tables_and_log()
        if self.meaning.status == 0 and tables != self.meaning.output:
            raise Difference("the tables are not those of the meaning")
        if (log is not None) != ("--log" in result.words):
            raise Difference("a log that wasn't asked for, or none")
        if log is not None and "".join(self.misses_of(log)) != result.notes:
            raise Difference("the lines of what was missed are not those that follow from the log")

    def paced(self, name, cell, time):
        """When a unit fires in a paced run on an event of this time."""
        offset = self.unit_offsets.get((name, cell))
        return 0 if offset is None else max(0, time + offset + 1)

    def judge_readings(self, result):
        """Raises a difference if a paced run fires something at another reading than time + offset + 1, or misses something else."""
        if self.firings is None:
            return
        readings = [(self.paced(name, cell, time), name, time, step) for name, cell, time, step in self.firings.firings]
        if "--log" in result.words:
            wanted = sorted((str(reading), f"{name},{time},{step}") for reading, name, time, step in readings)
            if result.claims != wanted:
                raise Difference(f"claims at other readings: {sorted(set(result.claims) ^ set(wanted))[:3]}")
        missed = [self.miss(name, time, step, reading) for reading, name, time, step in readings if self.actors[name]["kind"] == "actuator"]
        if sorted(line for lines in missed for line in lines) != sorted(result.notes.splitlines(keepends=True)):
            raise Difference("what a paced run missed isn't what its margins say")

    def judge_by_audit(self, result, pick):
        """Raises a difference if the audit doesn't find the log lawful, or still does with a line less."""
        lines = result.output.splitlines(keepends=True)
        place = pick.randrange(len(lines))
        shorter = lines[:place] + lines[place + 1:]
        for text, wanted in (result.output, (0, "lawful\n")), ("".join(shorter), (10, "")):
            self.write("log", text)
            found = self.call("audit", "graph.json", "log")
            # A quiet turn less is often as lawful.
            if (found.status, found.output) != wanted and not (wanted[0] == 10 and lines[place].startswith("turn,") and found.status == 0):
                raise Difference(f"audit ends with {found.status}: {found.output.strip()}{found.notes.strip()}")

    def misses_of(self, log):
        """The lines of what was missed by a log. Raises a difference if a unit is claimed before its offset is over."""
        reading, claims = 0, {}
        for line in log.splitlines():
            word, *rest = line.split(",")
            if word == "turn":
                platform, reading = rest[0], int(rest[2])
            elif word == "claim":
                number, name, time, step = rest
                claims[platform, number] = name, int(time), step
                offset = self.offsets.get(name)
                # The offset of lanes is the greatest of their cells.
                if offset is not None and self.actors[name]["kind"] != "lanes" and reading <= int(time) + offset:
                    raise Difference(f"{name} is claimed at {time}.{step} too early, at reading {reading}")
            elif word == "post":
                name, time, step = claims.pop((platform, rest[0]))
                if self.actors[name]["kind"] == "actuator":
                    yield from self.miss(name, time, step, reading)
            elif word == "sent" and rest[1] != "end":
                yield from self.miss(rest[0], int(rest[1]), rest[2], reading)
        if claims:
            raise Difference("a claim is never posted")

    def miss(self, name, time, step, reading):
        limit = time + self.actors[name]["slack"]
        if reading > limit:
            yield f"missed {name} at {time}.{step}, reading {reading} past {limit}\n"

    def judge_misses(self, result):
        if (result.status == 5) != bool(result.notes):
            raise Difference(f"status {result.status}, {result.notes.strip() or 'no notes'}")
        for line in result.notes.splitlines():
            found = re.fullmatch(r"missed (\w+) at (\d+)\.(\d+), reading (\d+) past (\d+)", line)
            if not found or self.actors[found[1]]["kind"] not in MISSING_KINDS:
                raise Difference(f"the line {line}")
            reading, limit = int(found[4]), int(found[5])
            if limit != int(found[2]) + self.actors[found[1]]["slack"] or reading <= limit:
                raise Difference(f"the numbers of {line}")
            if self.meaning.status == 0 and self.actors[found[1]]["kind"] == "actuator" and found.groups()[:3] not in self.events:
                raise Difference(f"no event of the meaning: {line}")

    def judge_replay(self, result, breach, run):
        """Raises a difference if a replay isn't right, by the first row that is past a bound and a paced run. Gives whether a message was late.

        Both are with a log or both without one.
        """
        if breach is None or self.late_row is not None:
            if result.ending != run.ending:
                raise Difference(f"status {result.status}, {result.notes.strip() or 'no notes'}; by run {run.status}, {run.notes.strip() or 'no notes'}")
            if result.tables_and_log()[0] != run.tables_and_log()[0]:
                raise Difference("the tables are not those of run")
            if result.claims != run.claims:
                raise Difference("the claims are not those of run")
        if result.status == 4 and self.late_row is None:
            if result.output:
                raise Difference("output at status 4")
            self.judge_late_message(result.notes, f", air row {breach}")
            return True
        return self.judge(result, "replay")

    def judge_late_message(self, notes, end=""):
        found = re.fullmatch(rf"late (\w+) at (\d+)\.(\d+), reading (\d+) past (\d+){end}\n", notes)
        if not found or found[1] not in self.bounds:
            raise Difference(f"status 4, {notes.strip() or 'no notes'}; the first row past a bound{end or ': none'}")
        reading, limit = int(found[4]), int(found[5])
        if limit != int(found[2]) + self.bounds[found[1]] or reading <= limit:
            raise Difference(f"the numbers of {notes.strip()}")
