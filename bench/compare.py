#!/usr/bin/env python3
"""Called by compare.sh: compare.py FOLDER PTIDES [ROUNDS [WORKLOAD..]]. The folder has the plain programs.

Processor time is user and system time over all threads, the least of all rounds, since other work only adds to it; in a round each
program runs once. Memory is the peak of the resident set. Output goes to nowhere, but for one run of each whose tables are compared.
"""
import os
import subprocess
import sys

WORKLOADS = ["make10", "make50", "make100", "rows", "wide", "dense", "chain"]


def spent(words):
    """The processor time of one run in milliseconds."""
    nowhere = [(os.POSIX_SPAWN_OPEN, 1, os.devnull, os.O_WRONLY, 0)]
    process = os.posix_spawn(words[0], words, os.environ, file_actions=nowhere)
    _, status, usage = os.wait4(process, 0)
    if status != 0:
        sys.exit(f"{' '.join(words)} ends with {os.waitstatus_to_exitcode(status)}")
    return (usage.ru_utime + usage.ru_stime) * 1000


def memory(words):
    """The peak of the resident set in MB."""
    timed = subprocess.run(["/usr/bin/time", "-f", "%M"] + words, stdout=subprocess.DEVNULL, stderr=subprocess.PIPE, check=True)
    return int(timed.stderr.split()[-1]) / 1024


def measure(programs, rounds):
    """For each program its least time and its memory, where all write the same tables."""
    tables = {name: subprocess.run(words, stdout=subprocess.PIPE, check=True).stdout for name, words in programs.items()}
    times = {name: [] for name in programs}
    first = next(iter(tables.values()))
    for name, table in tables.items():
        if table != first:
            sys.exit(f"{name} writes another table in {os.getcwd()}")
    for _ in range(rounds):
        for name, words in programs.items():
            times[name].append(spent(words))
    return {name: (min(times[name]), memory(words)) for name, words in programs.items()}


def firings(engine):
    """How many firings a workload has."""
    log = subprocess.run([engine, "graph.json", "--log"], stdout=subprocess.PIPE, check=True).stdout
    return log.count(b"\nclaim,")


def row(*cells):
    print("| " + " | ".join(cell if isinstance(cell, str) else f"{cell:,}" if isinstance(cell, int) else f"{cell:.1f}"
                            for cell in cells) + " |", flush=True)


def head(title, *cells):
    print(f"\n{title}\n")
    row(*cells)
    print("|" + "---|" * len(cells))


def growth(found, name):
    """How much time and memory each further firing takes, from each size of make to the next."""
    sizes = [(count, result[name]) for workload, count, result in found if workload.startswith("make")]
    for (small, (less, low)), (large, (more, high)) in zip(sizes, sizes[1:]):
        nanoseconds, size = (more - less) * 1e6 / (large - small), (high - low) * 2**20 / (large - small)
        print(f"{name}, from {small:,} to {large:,} firings: {nanoseconds:.0f} ns and {size:.0f} bytes for each further one")


def main():
    folder, ptides, *rest = sys.argv[1:]
    rounds, workloads = int(rest[0]) if rest else 9, rest[1:] or WORKLOADS
    here = os.path.dirname(os.path.abspath(__file__))
    loop, engine = os.path.join(folder, "event_loop"), os.path.join(folder, "paced_engine")
    programs = {"loop": [loop, "graph.json"], "meaning": [ptides, "meaning", "graph.json"], "engine": [engine, "graph.json"],
                "records": [engine, "graph.json", "--records"], "run": [ptides, "run", "graph.json"]}
    print(f"{ptides}, {rounds} rounds")
    found = []
    for name in workloads:
        place = os.path.join(folder, name)
        subprocess.run([sys.executable, os.path.join(here, "workloads.py"), name, place], check=True)
        os.chdir(place)
        found.append((name, firings(engine), measure(programs, rounds)))
    head("ptides meaning, beside event_loop", "Workload", "Firings", "`event_loop` ms", "`ptides` ms", "times", "`event_loop` MB",
         "`ptides` MB", "times")
    for name, count, result in found:
        (a, m), (b, n) = result["loop"], result["meaning"]
        row(name, count, a, b, f"{b / a:.2f}", m, n, f"{n / m:.2f}")
    head("ptides run, beside paced_engine, bare and with --records", "Workload", "Firings", "bare ms", "`--records` ms",
         "`ptides` ms", "times bare", "times `--records`", "bare MB", "`--records` MB", "`ptides` MB", "times `--records`")
    for name, count, result in found:
        (a, m), (b, n), (c, o) = result["engine"], result["records"], result["run"]
        row(name, count, a, b, c, f"{c / a:.2f}", f"{c / b:.2f}", m, n, o, f"{o / n:.2f}")
    print()
    growth(found, "meaning")
    growth(found, "run")


main()
