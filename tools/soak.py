"""Called by soak.sh, whose head says what it does: soak.py SECONDS PROGRAM FOLDER SEED JOBS."""
import collections
import functools
import itertools
import json
import multiprocessing
import os
import random
import re
import shutil
import signal
import subprocess
import sys
import tempfile
import time

sys.path.insert(0, os.path.join(os.path.dirname(os.path.abspath(__file__)), "tests"))
import airs  # noqa: E402
from judges import Difference, Program, expect  # noqa: E402
from margins import MOST, Numbers, random_graph  # noqa: E402

WORKERS = [1, 2, 3, 4, 5, 7, 8, 16, 33, 64]
SECONDS_BETWEEN_SUMMARIES = 300
# A run by the machine's clock takes as long as its horizon.
LONGEST_BY_MACHINE = 3000
MOST_VISITS = 3000


class Cases:
    """All cases of one graph. Each method raises the first difference that it finds."""

    def __init__(self, program, clocks, pick):
        self.program, self.graph, self.clocks, self.pick = program, program.graph, clocks, pick
        self.counts = collections.Counter()
        # What was written under each clock, whatever the number of workers.
        self.answers = {}
        # Numbers of claims are chosen apart, so that the other choices are those that they were without them.
        self.pick_claims = random.Random(json.dumps(self.graph))

    def all(self):
        """The cases, in the order in which they are tried."""
        return [self.margins, self.meaning, self.texts, self.runs, self.slacks, self.too_little_slack, self.empty_file, self.replays]

    def last(self):
        """A time by which all is over: the horizon and the greatest offset."""
        return self.graph["until"] + max([0, *self.program.offsets.values()])

    def margins(self):
        expect("check", (0, self.program.numbers.margins(), ""), self.program.call("check", "graph.json"))

    def meaning(self):
        self.counts["meanings"] += self.program.meaning.status == 0 and self.program.firings is not None
        self.more_claims(self.program.meaning)

    def texts(self):
        """The graph as a file of version 2 is what Python's `json` writes, says the same of itself, and is the same graph."""
        text = json.dumps({"clock_errors": [], **self.graph, "ptides": 2}, sort_keys=True, separators=(",", ":")) + "\n"
        for file in ("graph.json", "migrated.json"):
            expect("migrate", (0, text, ""), self.program.call("migrate", file))
            self.program.write("migrated.json", text)
        log = ["--log"] * (self.pick.random() < 0.5)
        run = self.program.call("run", "graph.json", *log)
        expect("the run of the text", run.whole, self.program.call("run", "migrated.json", *log))

    def clocks_and_steps(self):
        """Clocks, each with how often a graph runs under it. Steps are small or great beside the horizon."""
        for clock in self.clocks:
            if clock.startswith("step:"):
                for _ in range(2):
                    least = self.last() // MOST_VISITS + 1
                    step = self.pick.choice([least, least, 5 * least, self.pick.randint(1, 300) * least, self.last() + 1])
                    yield f"step:{self.pick.choice([0, 0, 1, step, self.pick.randint(0, self.last())])}:{min(step, MOST)}", 2
            elif clock == "paced":
                yield clock, 3
            elif self.last() <= LONGEST_BY_MACHINE:
                yield clock, 2

    def runs(self):
        """Each run is right; its log is lawful; under other clocks than that of the machine the number of workers changes nothing."""
        for clock, times in self.clocks_and_steps():
            for workers in self.pick.sample(WORKERS, times):
                log = self.pick.random() < 0.6
                result = self.program.call("run", "graph.json", "--workers", str(workers), "--clock", clock, *["--log"] * log)
                self.counts["runs"] += 1
                self.counts["late messages"] += self.program.judge(result, clock)
                self.same((clock, log), result)
                self.audit(result)
                if clock != "machine":
                    self.more_claims(result)

    def same(self, key, result):
        clock, log = key
        if clock != "machine":
            for what, found in ((clock, result.ending), ((clock, log), result.output)):
                if self.answers.setdefault(what, found) != found:
                    raise Difference("another text or status than with another number of workers")

    def more_claims(self, result):
        """Whatever number of claims a platform may make, it makes no other ones, unless it had made as many as it may."""
        if result.status == 6 or not takes_claims(self.program.program):
            return
        number = self.pick_claims.choice([200_000, 200_001, 100_000_000, self.pick_claims.randint(200_000, 100_000_000)])
        expect("another number of claims", result.whole, self.program.call(*result.words, "--claims", str(number)))
        self.counts["more claims"] += 1

    def audit(self, result):
        """Of a graph with a late row each file is refused for that row."""
        if "--log" in result.words and result.status in (0, 5):
            self.program.judge_by_audit(result, self.pick)
            self.counts["lawful logs"] += 1
        elif self.program.late_row and not self.counts["refused audits"]:
            expect("audit", (4, "", self.program.late_row), self.program.call("audit", "graph.json", "graph.json"))
            self.counts["refused audits"] += 1

    def slacks(self):
        """The least slacks are those of the documents. With them the graph can run and nothing is missed, and the slacks are the same."""
        slacks = self.program.numbers.least_slacks()
        text = "actor,slack\n" + "".join(f"{name},{slack}\n" for name, slack in slacks.items())
        expect("slacks", (0, text, ""), self.program.call("slacks", "graph.json"))
        if max([0, *slacks.values()]) > MOST:
            return
        graph = self.with_slacks("slacked.json", slacks)
        expect("check with the least slacks", (0, Numbers(graph).margins(), ""), self.program.call("check", "slacked.json"))
        expect("slacks once more", (0, text, ""), self.program.call("slacks", "slacked.json"))
        run = self.program.call("run", "slacked.json")
        if self.program.late_row:
            expect("run with the least slacks", (4, "", self.program.late_row), run)
        elif run.status != 6 and self.program.meaning.status != 6:
            expect("run with the least slacks", (0, self.program.meaning.output, ""), run)
        self.counts["slacks"] += 1

    def with_slacks(self, file, slacks):
        """Writes a file with these slacks."""
        graph = {**self.graph, "actors": [{**actor, "slack": slacks[actor["name"]]} if actor["name"] in slacks else actor for actor in self.graph["actors"]]}
        self.program.write(file, json.dumps(graph))
        return graph

    def too_little_slack(self):
        """With one less than the least slack of a sender the graph is refused, at the first sender that can't send."""
        slacks = self.program.numbers.least_slacks()
        some = [name for name in self.program.numbers.senders if 0 < slacks[name] <= MOST]
        if some and max(slacks.values()) <= MOST:
            slacks[self.pick.choice(some)] -= 1
            self.with_slacks("less.json", slacks)
            line = self.program.numbers.infeasible(slacks)
            for words in (["check", "less.json"], ["run", "less.json"]):
                expect("too little slack", (2, "", line), self.program.call(*words))

    def empty_file(self):
        """A file of a sensor that is empty is refused, unless a row of an earlier sensor is late."""
        sensors = [actor for actor in self.graph["actors"] if actor["kind"] == "sensor"]
        if not sensors or self.pick.random() < 0.7:
            return
        chosen = self.pick.randrange(len(sensors))
        actors = [{**actor, "file": "empty.csv"} if actor is sensors[chosen] else actor for actor in self.graph["actors"]]
        self.program.write("empty.csv", "")
        self.program.write("empty.json", json.dumps({**self.graph, "actors": actors}))
        header = (3, "", f"sensor {sensors[chosen]['name']}: header\n")
        lines = [line for line in map(self.program.late_row_of, sensors[:chosen]) if line]
        expect("an empty file", (4, "", lines[0]) if lines else header, self.program.call("run", "empty.json"))
        expect("an empty file", header, self.program.call("meaning", "empty.json"))

    def replays(self):
        """Over random networks, within the bounds and past them, and by the head alone."""
        if " | replay GRAPH " not in self.program.usage:
            return
        run = self.program.call("run", "graph.json", "--log")
        within, past = airs.within(self.pick, self.program.network), [airs.past(self.pick, self.program.network) for _ in range(2)]
        for rows in ([], within, *past):
            with open(os.path.join(self.program.folder, "air.csv"), "wb") as file:
                file.write(airs.spelled(rows, self.pick))
            words, breach = ["replay", "graph.json", "air.csv", "--log"], self.program.network.breach(rows)
            result = self.program.call(*words, "--workers", "1")
            self.counts["replays"] += 1
            self.counts["breaches"] += breach is not None
            self.counts["late messages"] += self.program.judge_replay(result, breach, run)
            expect("another number of workers", result.whole, self.program.call(*words, "--workers", str(self.pick.choice(WORKERS[1:]))))
            self.audit(result)
            self.more_claims(result)


@functools.lru_cache(maxsize=None)
def takes_claims(program):
    """Whether this is a program with the option."""
    return subprocess.run([program, "meaning", "/dev/null/none", "--claims", "200000"], stdin=subprocess.DEVNULL, capture_output=True, check=False).returncode != 1


def usage_of(program):
    return subprocess.run([program], stdin=subprocess.DEVNULL, capture_output=True, check=False).stderr.decode()


def clocks_of(program, usage):
    """The clocks that the usage line names, as they are written there."""
    found = re.search(r"--clock ([^\]]*)\]", usage)
    if not found:
        sys.exit(f"{program} names no clock in its usage line")
    return found[1].split("|")


def report(seed, program, what):
    """Keeps the folder of a difference with all that is needed to see it again, and prints where."""
    kept = tempfile.mkdtemp(prefix="ptides-soak-")
    shutil.copytree(program.folder, kept, dirs_exist_ok=True)
    words = " ".join(program.words)
    with open(os.path.join(kept, "difference"), "w", encoding="utf-8") as file:
        file.write(f"SEED={seed}\n{what}\n{program.program} {words}\n")
    print(f"difference: SEED={seed}: {what}: {words} in {kept}", flush=True)


def graph(name, usage, seed, place):
    """All cases of the graph of a seed. Gives what was counted."""
    shutil.rmtree(place, ignore_errors=True)
    random_graph.make(seed, place, far=seed % 4 == 0)
    program = Program(name, place)
    program.usage = usage
    cases = Cases(program, clocks_of(name, usage), random.Random(seed))
    for case in cases.all():
        try:
            case()
        except (Difference, LookupError, ValueError) as what:
            cases.counts["differences"] += 1
            report(seed, program, what if isinstance(what, Difference) else f"what it writes can't be read: {what!r}")
    statuses = {f"status {status}": count for status, count in program.statuses.items()}
    return cases.counts + collections.Counter({"graphs": 1, "cases": program.calls, **statuses})


def work(name, usage, folder, seeds, end, results):
    """Tries the graphs of some seeds, one after the other, until the time is over."""
    for seed in seeds:
        if time.monotonic() > end:
            break
        results.put(graph(name, usage, seed, os.path.join(folder, "graph")))
    results.put(None)


def summary(clocks, counts):
    statuses = ", ".join(f"{counts[word]} with {word[7:]}" for word in sorted(counts, key=lambda word: (len(word), word)) if word.startswith("status "))
    print(f"{counts['graphs']} graphs, {counts['cases']} cases: {statuses or 'none ended'}; {counts['meanings']} meanings worked out, "
          f"{counts['runs']} runs under {' and '.join(clocks)}, {counts['slacks']} with the least slacks, "
          f"{counts['replays']} replays, {counts['breaches']} of them past a bound, "
          f"{counts['more claims']} with another number of claims, {counts['late messages']} late messages, {counts['lawful logs']} logs are lawful, {counts['differences']} differences", flush=True)


def main():
    # Nothing is left beside the scripts, and no run goes on if this is ended.
    sys.dont_write_bytecode = True
    signal.signal(signal.SIGTERM, lambda *_: sys.exit(143))
    seconds, program, folder, seed, jobs = int(sys.argv[1]), sys.argv[2], sys.argv[3], int(sys.argv[4]), int(sys.argv[5])
    usage = usage_of(program)
    clocks, counts = clocks_of(program, usage), collections.Counter()
    begin = shown = time.monotonic()
    results = multiprocessing.SimpleQueue()
    for job in range(jobs):
        place = os.path.join(folder, str(job))
        seeds = itertools.count(seed + job, jobs)
        multiprocessing.Process(target=work, args=(program, usage, place, seeds, begin + seconds, results), daemon=True).start()
    try:
        while jobs:
            found = results.get()
            jobs -= found is None
            counts.update(found or {})
            if time.monotonic() > shown + SECONDS_BETWEEN_SUMMARIES:
                shown = time.monotonic()
                summary(clocks, counts)
    finally:
        summary(clocks, counts)
    sys.exit(1 if counts["differences"] else 0)


if __name__ == "__main__":
    main()
