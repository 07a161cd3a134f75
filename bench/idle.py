#!/usr/bin/env python3
"""idle.py PROGRAM..: what a run by the machine's clock takes of a processor while mostly nothing happens, and how many deadlines it misses.

The graph has four platforms. Each has a sensor with a row each 100 ms for 5 s, an actuator of its own, and a link to the next platform,
where the row moves another actuator. With 1, 2, 4 and 8 workers: processor time as a percentage of the run's time, and the deadlines missed
of all that there are. Each number is the median of REPEATS runs (3). Two programs are run in turn, so that both meet the same machine."""
import os
import statistics
import subprocess
import sys
import tempfile
import time

WORKERS = [1, 2, 4, 8]
PLATFORMS = 4
STEP = 100_000
ROWS = 49
UNTIL = 5_000_000


def graph(slack):
    actors, wires, links = [], [], []
    for k in range(PLATFORMS):
        on = f'"platform":"p{k}"'
        actors += [
            f'{{"name":"s{k}",{on},"kind":"sensor","file":"s{k}.csv","bound":1000}}',
            f'{{"name":"near{k}",{on},"kind":"actuator","slack":{slack}}}',
            f'{{"name":"lead{k}",{on},"kind":"delay","d":5000}}',
            f'{{"name":"up{k}",{on},"kind":"send","slack":{slack}}}',
            f'{{"name":"down{k}",{on},"kind":"receive"}}',
            f'{{"name":"ahead{k}",{on},"kind":"delay","d":10000}}',
            f'{{"name":"far{k}",{on},"kind":"actuator","slack":{slack}}}',
        ]
        wires += [f'["s{k}",0,"lead{k}",0]', f'["lead{k}",0,"near{k}",0]', f'["lead{k}",0,"up{k}",0]', f'["down{k}",0,"ahead{k}",0]', f'["ahead{k}",0,"far{k}",0]']
        links.append(f'{{"from":"up{k}","to":"down{(k + 1) % PLATFORMS}","delay":5000}}')
    names = ",".join(f'"p{k}"' for k in range(PLATFORMS))
    return (
        f'{{"ptides":1,"until":{UNTIL},"clock_error":100,"platforms":[{names}],"actors":[{",".join(actors)}],'
        f'"wires":[{",".join(wires)}],"links":[{",".join(links)}]}}'
    )


def rows(platform):
    first = STEP * platform // PLATFORMS
    stamps = [first + STEP * (k + 1) for k in range(ROWS)]
    return "time,seen,value\n" + "".join(f"{stamp},{stamp},{k}\n" for k, stamp in enumerate(stamps))


def run(program, folder, workers):
    """The processor time as a percentage of the run's time, the deadlines missed, and the tables."""
    words = [program, "run", "graph.json", "--clock", "machine", "--workers", str(workers)]
    start = time.monotonic()
    with open(f"{folder}/tables", "w") as tables, open(f"{folder}/notes", "w") as notes:
        child = subprocess.Popen(words, cwd=folder, stdout=tables, stderr=notes)
        _, status, usage = os.wait4(child.pid, 0)
    spent = time.monotonic() - start
    with open(f"{folder}/tables") as tables, open(f"{folder}/notes") as notes:
        table, lines = tables.read(), notes.read().splitlines()
    if os.waitstatus_to_exitcode(status) not in (0, 5):
        sys.exit(f"status {os.waitstatus_to_exitcode(status)}: {lines}")
    missed = sum(line.startswith("missed") for line in lines)
    return 100 * (usage.ru_utime + usage.ru_stime) / spent, missed, table


def main():
    programs = sys.argv[1:]
    if not programs:
        sys.exit(__doc__)
    repeats = int(os.environ.get("REPEATS", "3"))
    all_tables = set()
    with tempfile.TemporaryDirectory() as folder:
        with open(f"{folder}/graph.json", "w") as file:
            file.write(graph(int(os.environ.get("SLACK", "2000"))))
        for k in range(PLATFORMS):
            with open(f"{folder}/s{k}.csv", "w") as file:
                file.write(rows(k))
        print(f"load before: {os.getloadavg()[0]:.1f} on {os.cpu_count()} processors; {3 * PLATFORMS * ROWS} deadlines")
        print("workers   " + "   ".join(f"{os.path.basename(p)[:24]:>12} missed" for p in programs))
        for workers in WORKERS:
            found = {p: [] for p in range(len(programs))}
            for _ in range(repeats):
                for number, program in enumerate(programs):
                    percent, missed, table = run(os.path.abspath(program), folder, workers)
                    found[number].append((percent, missed))
                    all_tables.add(table)
            cells = [(statistics.median(f[0] for f in each), statistics.median(f[1] for f in each)) for each in found.values()]
            print(f"{workers:7}   " + "   ".join(f"{percent:11.1f}% {missed:6.0f}" for percent, missed in cells))
    if len(all_tables) != 1:
        sys.exit("the tables differ")


if __name__ == "__main__":
    main()
