"""Logs that are long, or slow to judge, and what they cost: the last part of test-audit.py."""
import json
import os
import subprocess
import sys

from logs import MOST_BYTES, Log, lines_of

MOST_SECONDS = 900
MOST_TIME, MOST_MEMORY = 2.5, 3.0
# Run by a small process of its own, since a child's greatest memory is at least its parent's.
MEASURE = """
import os, subprocess, sys
out, notes, *words = sys.argv[1:]
running = subprocess.Popen(words, stdin=subprocess.DEVNULL, stdout=open(out, "wb"), stderr=open(notes, "wb"))
_, ending, usage = os.wait4(running.pid, 0)
print(os.waitstatus_to_exitcode(ending), usage.ru_utime + usage.ru_stime, usage.ru_maxrss / 1024)
"""


class Cost:
    """How a command ended, the processor time that it took in seconds, and its memory in MiB."""

    def __init__(self, tester, folder, words, output):
        self.notes = os.path.join(tester.work, "notes")
        command = [sys.executable, "-c", MEASURE, output, self.notes, tester.program, *words]
        done = subprocess.run(command, cwd=folder, stdin=subprocess.DEVNULL, capture_output=True, timeout=MOST_SECONDS, check=True)
        status, seconds, memory = done.stdout.split()
        self.status, self.seconds, self.memory = int(status), float(seconds), float(memory)
        with open(self.notes, encoding="utf-8") as file:
            self.line = file.readline().rstrip("\n")

    def __str__(self):
        return f"{self.seconds:.1f} s, {self.memory:.0f} MiB"


def beside(one, other, most, rounds=12):
    """Runs two commands in turns, and gives the costs of each in the run of least time, with all statuses. Other work on the
    machine only makes a run longer: so where the other takes more than `most` times as long as the one, there are more rounds."""
    ones, others = [], []
    while True:
        ones.append(one())
        others.append(other())
        least, other_least = (min(costs, key=lambda cost: cost.seconds) for costs in (ones, others))
        if len(ones) >= 2 and (other_least.seconds <= most * least.seconds or len(ones) == rounds):
            return least, other_least, sorted({cost.status for cost in ones + others})


def every(name, platform, period):
    return {"name": name, "platform": platform, "kind": "every", "start": 0, "period": period}


def write_graph(folder, platforms, actors, wires, links, until):
    os.makedirs(folder)
    graph = {"ptides": 2, "until": until, "clock_error": 0, "clock_errors": [], "platforms": platforms, "actors": actors, "wires": wires,
             "links": [{"from": sender, "to": receiver, "delay": delay} for sender, receiver, delay in links]}
    with open(os.path.join(folder, "graph.json"), "w", encoding="ascii") as file:
        json.dump(graph, file)
    return folder


def one_sender(work, name, events, links, waiting=0):
    """On p an event each microsecond goes to senders, each with a link to q; many actors wait for a message that may take long."""
    actors, wires, ends = [every("e", "p", 1)], [], []
    for number in range(links):
        actors += [{"name": f"w{number}", "platform": "p", "kind": "send", "slack": 0}, {"name": f"r{number}", "platform": "q", "kind": "receive"}]
        wires.append(["e", 0, f"w{number}", 0])
        ends.append((f"w{number}", f"r{number}", 0))
    platforms = ["p", "q"]
    if waiting:
        platforms.append("z")
        actors += [every("first", "p", 10**15), every("z", "z", 10**15), {"name": "v", "platform": "z", "kind": "send", "slack": 0},
                   {"name": "late", "platform": "p", "kind": "receive"}]
        wires.append(["z", 0, "v", 0])
        ends.append(("v", "late", 10**12))
        for number in range(waiting):
            actors.append({"name": f"a{number}", "platform": "p", "kind": "add"})
            wires += [["first", 0, f"a{number}", 0], ["late", 0, f"a{number}", 1]]
    return write_graph(os.path.join(work, name), platforms, actors, wires, ends, events - 1)


def ring(work, name, events, count):
    """On each of these platforms an event each microsecond is sent to the next platform."""
    platforms = [f"p{number}" for number in range(count)]
    actors, wires, links = [], [], []
    for number, platform in enumerate(platforms):
        actors += [every(f"e{number}", platform, 1), {"name": f"w{number}", "platform": platform, "kind": "send", "slack": 0},
                   {"name": f"r{number}", "platform": platform, "kind": "receive"}]
        wires.append([f"e{number}", 0, f"w{number}", 0])
        links.append((f"w{number}", f"r{(number + 1) % count}", 0))
    return write_graph(os.path.join(work, name), platforms, actors, wires, links, events - 1)


def sent_later(data, most, order=None, quiet=False):
    """A log in which each platform sends all its events at the end, a limited number of them in a turn: so it is lawful as well.

    `order` sorts the messages; with `quiet` a turn in which nothing happens comes between two of these turns.
    """
    log = Log(data)
    found, platform = [], None
    for _, text in log.turns:
        name = text.split(b",", 2)[1]
        if name != platform:
            found.append([])
            platform = name
        found[-1].append(lines_of(text))
    for turns in found:
        last, later = 0, []
        for number, lines in enumerate(turns):
            events = [line for line in lines if line.startswith(b"sent,") and not line.endswith(b",end\n")]
            if events:
                last = number
                later += events
                turns[number] = [line for line in lines if line not in events]
        if order:
            later.sort(key=order)
        head = b"turn,%s,%s,%s,1\n" % (turns[last][0].split(b",")[1], *[turns[last][0].split(b",")[3]] * 2)
        new = [[head, *later[place:place + most]] for place in range(0, len(later), most)]
        if quiet:
            new = [part for each in new for part in (each, [head])][:-1]
        turns[last + 1:last + 1] = new
    return data[:log.begins] + b"".join(line for turns in found for lines in turns for line in lines)


def judge(tester, what, folder, data, wanted):
    with open(tester.log, "wb") as file:
        file.write(data)
    output = os.path.join(tester.work, "output")
    try:
        cost = Cost(tester, folder, ["audit", "graph.json", tester.log], output)
    except subprocess.TimeoutExpired:
        tester.fail(f"{what}: it takes more than {MOST_SECONDS} s")
        return
    with open(output, "rb") as file:
        found = cost.status, file.read(), cost.line
    tester.expect(what, wanted, found)
    print(f"{what}: {len(data) / 1e6:.1f} MB, {data.count(b'turn,')} turns: {cost}", flush=True)


LAWFUL = 0, b"lawful\n", ""


def test_hostile(tester):
    """Each ends, with its verdict."""
    folder = one_sender(tester.work, "outbox", 100_000, 1)
    data = tester.run(folder, "paced", 1)
    judge(tester, "100,000 messages that are sent 64 a turn, after all claims", folder, sent_later(data, 64), LAWFUL)
    judge(tester, "the same one a turn, and a quiet turn between two of these", folder, sent_later(data, 1, quiet=True), LAWFUL)
    folder = one_sender(tester.work, "crossed", 33_000, 2)
    data = tester.run(folder, "paced", 1)
    judge(tester, "66,000 messages, those of the second link first", folder, sent_later(data, 64, order=lambda line: line.startswith(b"sent,w0,")), LAWFUL)
    folder = one_sender(tester.work, "waiting", 20_000, 1, waiting=1000)
    data = tester.run(folder, "paced", 1)
    judge(tester, "1,000 actors that wait, by the paced clock", folder, data, LAWFUL)
    judge(tester, "1,000 actors that wait, and 20,000 turns that only send", folder, sent_later(data, 1), LAWFUL)


def test_costs(tester):
    """Time and memory of long logs beside those of the runs that wrote them, and what may be asked of them."""
    for what, folder in (("5 platforms", ring(tester.work, "ring", 50_000, 5)), ("2 platforms", os.path.join(tester.work, "outbox"))):
        run, audit, statuses = beside(lambda folder=folder: Cost(tester, folder, ["run", "graph.json", "--log"], tester.log),
                                      lambda folder=folder: Cost(tester, folder, ["audit", "graph.json", tester.log], os.path.join(tester.work, "output")), MOST_TIME)
        tester.expect(f"{what}: statuses", [0], statuses)
        time, memory = audit.seconds / run.seconds, audit.memory / run.memory
        print(f"a log of {what}, {os.path.getsize(tester.log) / 1e6:.1f} MB of at most {MOST_BYTES / 1e6:.1f}: run {run}; audit {audit}; "
              f"{time:.2f} times as long, {memory:.2f} times as much memory", flush=True)
        tester.expect(f"{what}: at most {MOST_TIME} times as long", True, time <= MOST_TIME)
        tester.expect(f"{what}: at most {MOST_MEMORY} times as much memory", True, memory <= MOST_MEMORY)
        with open(tester.log, "rb") as file:
            data = file.read()
        if what == "5 platforms":
            judge(tester, "250,000 messages of 5 platforms that are sent one a turn, each followed by a quiet one", folder, sent_later(data, 1, quiet=True), LAWFUL)


def test_slow(tester):
    test_hostile(tester)
    test_costs(tester)
