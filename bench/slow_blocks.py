#!/usr/bin/env python3
"""slow_blocks.py PROGRAM [FOLDER]: runs graphs of eight sensors and four blocks by PROGRAM, the built example crate slow_blocks, with 1, 2, 4
and 8 workers, and prints two tables: how long the runs take with all rows seen at once, and how many deadlines are missed with a row each 2 ms.
Each is the median of REPEATS runs (5). The load of the machine before it is printed, since other work makes threads late."""
import os
import statistics
import subprocess
import sys
import tempfile
import time

WORKERS = [1, 2, 4, 8]
ROWS = 100


def graph(block, until, slack):
    actors, wires = [], []
    for k in range(8):
        actors.append(f'{{"name":"s{k}","platform":"p","kind":"sensor","file":"s.csv","bound":10}}')
    for k in range(4):
        actors.append(f'{{"name":"b{k}","platform":"p","kind":"block","block":"{block}"}}')
        wires += [f'["s{2 * k}",0,"b{k}",0]', f'["s{2 * k + 1}",0,"b{k}",1]', f'["b{k}",0,"out{k}",0]']
    for k in range(4):
        actors.append(f'{{"name":"out{k}","platform":"p","kind":"actuator","slack":{slack}}}')
    return (
        f'{{"ptides":1,"until":{until},"clock_error":0,"platforms":["p"],"actors":[{",".join(actors)}],'
        f'"wires":[{",".join(wires)}],"links":[]}}'
    )


def rows(step):
    return "time,seen,value\n" + "".join(f"{step * (k + 1)},{step * (k + 1)},{k}\n" for k in range(ROWS))


def run(program, folder, workers):
    start = time.monotonic()
    words = [program, "run", "graph.json", "--clock", "machine", "--workers", str(workers)]
    done = subprocess.run(words, cwd=folder, capture_output=True, text=True)
    spent = time.monotonic() - start
    if done.returncode not in (0, 5):
        sys.exit(f"status {done.returncode}: {done.stderr}")
    missed = sum(line.startswith("missed") for line in done.stderr.splitlines())
    return spent, missed, done.stdout


def measure(program, folder, block, step, slack):
    with open(f"{folder}/graph.json", "w") as file:
        file.write(graph(block, step * ROWS + 1000, slack))
    with open(f"{folder}/s.csv", "w") as file:
        file.write(rows(step))
    line, tables = [], set()
    for workers in WORKERS:
        runs = [run(program, folder, workers) for _ in range(int(os.environ.get("REPEATS", "5")))]
        tables |= {out for _, _, out in runs}
        line.append((statistics.median(r[0] for r in runs), statistics.median(r[1] for r in runs)))
    if len(tables) != 1:
        sys.exit("the tables differ")
    return line


def main():
    program = os.path.abspath(sys.argv[1])
    folder = sys.argv[2] if len(sys.argv) > 2 else tempfile.mkdtemp()
    print("load before:", *os.getloadavg(), "processors:", os.cpu_count())
    print("workers            ", *(f"{w:>9}" for w in WORKERS))
    for block in ["slow", "least"]:
        line = measure(program, folder, block, 1, 60_000_000)
        print(f"{block:8} at once, ms", *(f"{1000 * seconds:9.1f}" for seconds, _ in line))
    for block in ["slow", "least"]:
        line = measure(program, folder, block, 2000, 1500)
        print(f"{block:8} missed     ", *(f"{missed:9.0f}" for _, missed in line), "of", 4 * ROWS)


main()
