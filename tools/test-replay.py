"""Called by test-replay.sh, whose head says what it does: test-replay.py PROGRAM FOLDER TIMES SEED."""
import json
import os
import random
import re
import shutil
import signal
import subprocess
import sys

sys.path.insert(0, os.path.join(os.path.dirname(os.path.abspath(__file__)), "tests"))
import airs  # noqa: E402
import judges  # noqa: E402
import testers  # noqa: E402
from slow_logs import Cost, beside, every, ring, write_graph  # noqa: E402

HEAD = b"what,name,value\n"
MOST_TIME, MOST_MEMORY = 2.5, 2.0


class Tester(testers.Tester):
    """Replays graphs."""

    def __init__(self, program, work):
        super().__init__(program, work, "air file")
        self.air = os.path.join(work, "air")

    def replay(self, folder, data, *options):
        with open(self.air, "wb") as file:
            file.write(data)
        return self.call(folder, "replay", "graph.json", self.air, *options)

    def refuses(self, what, folder, data, line):
        self.expect(what, (b"", f"air: {line}\n", 3), self.replay(folder, data), data)


class Case:
    """A graph in a folder with a paced run of it."""

    def __init__(self, tester, folder):
        self.tester, self.program = tester, judges.Program(tester.program, folder)
        self.folder, self.network = folder, self.program.network
        self.run = self.program.call("run", "graph.json", "--log")

    def judge(self, what, rows, data):
        """Replays with the log, by 1 worker and by 64, and without it. Gives the status."""
        tester, breach = self.tester, self.network.breach(rows)
        with open(tester.air, "wb") as file:
            file.write(data)
        words = ["replay", "graph.json", tester.air, "--log", "--workers"]
        try:
            one, many, plain = (self.program.call(*each) for each in ([*words, "1"], [*words, "64"], words[:3]))
            self.program.judge_replay(one, breach, self.run)
            if (many.ending, many.output) != (one.ending, one.output):
                raise judges.Difference("another text or status by 64 workers")
            if (plain.ending, plain.output) != (one.ending, one.tables_and_log()[0]):
                raise judges.Difference("another text or status without --log")
            if one.status in (0, 5):
                self.lawful(one.output)
            fault = None
        except judges.Difference as difference:
            fault = str(difference)
        tester.expect(f"{what} in {self.folder}", None, fault, data)
        return one.status

    def lawful(self, log):
        path = os.path.join(self.tester.work, "log")
        with open(path, "w", encoding="ascii") as file:
            file.write(log)
        found = self.program.call("audit", "graph.json", path)
        if (found.status, found.output) != (0, "lawful\n"):
            raise judges.Difference(f"audit ends with {found.status}: {found.output.strip()}{found.notes.strip()}")


def cases(tester, seed, count):
    """Examples and random graphs. What a graph with other delays needs is in a folder of its own. Formulas aren't worked out here."""
    examples = [folder for folder in testers.examples() if not testers.blocks_of(folder)]
    for folder in [*examples, *testers.graphs(tester, seed, count)]:
        yield Case(tester, folder)


def without_delays(case, place):
    """The same graph with links that take no time."""
    shutil.rmtree(place, ignore_errors=True)
    shutil.copytree(case.folder, place)
    graph = json.loads(json.dumps(case.program.graph))
    for link in graph["links"]:
        link["delay"] = 0
    with open(os.path.join(place, "graph.json"), "w", encoding="ascii") as file:
        json.dump(graph, file)
    return place


def test_heads(tester, all_cases, pick):
    """The head alone."""
    before, logs = tester.passed, 0
    for case in all_cases:
        case.judge("the head alone", [], HEAD)
        folder = without_delays(case, os.path.join(tester.work, "no-delays"))
        run = tester.call(folder, "run", "graph.json", "--log")
        tester.expect(f"no delays in {case.folder}", run, tester.replay(folder, airs.spelled([], pick), "--log"))
        logs += run[2] in (0, 5)
    print(f"{len(all_cases)} graphs over the network that they state, {tester.passed - before} as run; {logs} of them without delays, with the log of run", flush=True)


def count_statuses(statuses):
    return ", ".join(f"{statuses.count(status)} with {status}" for status in sorted(set(statuses)))


def test_networks(tester, all_cases, pick, count):
    """Random recordings."""
    for what, make in (("within bounds", airs.within), ("past bounds", airs.past)):
        statuses, breaches = [], 0
        for number in range(count):
            case = all_cases[number % len(all_cases)]
            rows = make(pick, case.network)
            statuses.append(case.judge(f"a recording {what}", rows, airs.spelled(rows, pick)))
            breaches += case.network.breach(rows) is not None
        print(f"{count} recordings {what}, {breaches} with a breach: {count_statuses(statuses)}", flush=True)


def test_burst(tester):
    """500 messages that wait behind the first, and arrive with it."""
    actors = [every("e", "p", 1), {"name": "w", "platform": "p", "kind": "send", "slack": 0}, {"name": "r", "platform": "q", "kind": "receive"},
              {"name": "out", "platform": "q", "kind": "actuator", "slack": 2000}]
    folder = write_graph(os.path.join(tester.work, "burst"), ["p", "q"], actors, [["e", 0, "w", 0], ["r", 0, "out", 0]], [("w", "r", 1000)], 499)
    case = Case(tester, folder)
    rows = [("transit", "w", 1000), *[("transit", "w", 0)] * 499]
    case.judge("500 messages at once", rows, airs.spelled(rows))
    turns = tester.replay(folder, airs.spelled(rows), "--log")[0].decode().split("\nturn,")[1:]
    taken = [(turn.split(",")[2], len(re.findall(r"\ntake,r,\d", turn))) for turn in turns if "\ntake,r," in turn]
    tester.expect("what is taken, by reading", [("1000", 64)] * 7 + [("1000", 52)], taken)


def test_extremes(tester, all_cases):
    """Transits of 0 and 10^15, and lags of 10^15."""
    statuses = []
    for case in all_cases:
        far, every_lag = airs.MOST_TIME, [("lag", name, airs.MOST_TIME) for name in case.network.platforms]
        messages = {time: [("transit", name, time) for name in case.network.delays for _ in range(40)] for time in (0, far)}
        linked = {name for pair in case.network.pairs for name in pair}
        alone = [("lag", name, far) for name in case.network.platforms if name not in linked]
        for rows in (messages[0], messages[far], every_lag, every_lag + messages[0], every_lag + messages[far], alone):
            statuses.append(case.judge("far", rows, airs.spelled(rows)))
        if case.network.breach(every_lag) is not None or case.network.breach(alone) is not None:
            tester.fail(f"a breach in {case.folder}")
    print(f"{len(statuses)} recordings with 0 and 10^15: {count_statuses(statuses)}", flush=True)


GRAPH = """{"ptides":1,"until":1000,"clock_error":5,
 "platforms":["p","q","w"],
 "actors":[
  {"name":"s","platform":"p","kind":"sensor","file":"s.csv","bound":10},
  {"name":"d","platform":"p","kind":"delay","d":30},
  {"name":"w","platform":"p","kind":"send","slack":0},
  {"name":"r","platform":"q","kind":"receive"},
  {"name":"f","platform":"q","kind":"delay","d":60},
  {"name":"out","platform":"q","kind":"actuator","slack":0}],
 "wires":[["s",0,"d",0],["d",0,"w",0],["r",0,"f",0],["f",0,"out",0]],
 "links":[{"from":"w","to":"r","delay":40}]}
"""
TABLE = b"actuator,time,step,value\nout,140,0,7\n"
# Rows, and what they give: the line of a fault, or none. `w` is a platform and a sender.
FILES = [("", "header"), ("\n\n", "header"), ("what,name\n", "header"), ("what,name,value,\n", "header"), (" what,name,value\n", "header"), ("What,name,value\n", "header"),
         ("lag,q,5\n", "header"), ("what;name;value\n", "header"), ('"what","name","value"', None), ("\n\nwhat,name,value", None), ("what,name,value\r\nlag,q,5\r\n", None),
         ("lag,q\n", "form at row 1"), ("lag,q,5,\n", "form at row 1"), ("lag;q;5\n", "form at row 1"), ("Lag,q,5\n", "form at row 1"), (" lag,q,5\n", "form at row 1"),
         ("delay,w,5\n", "form at row 1"), (",,\n", "form at row 1"), ("lag,q,5\n \n", "form at row 2"), ("lag,q,5\n\nlag,p\n", "form at row 2"), ("lag,x,x,x\n", "form at row 1"),
         ("lag,s,5\n", "unknown at row 1"), ("lag,r,5\n", "unknown at row 1"), ("transit,p,5\n", "unknown at row 1"), ("transit,r,5\n", "unknown at row 1"), ("transit,s,5\n", "unknown at row 1"),
         ("transit,W,5\n", "unknown at row 1"), ("transit, w,5\n", "unknown at row 1"), ("lag,,5\n", "unknown at row 1"), ("lag,x,x\n", "unknown at row 1"), ("lag,q,1\nlag,x,5\n", "unknown at row 2"),
         ("lag,q,\n", "number at row 1"), ("lag,q,-1\n", "number at row 1"), ("lag,q,+1\n", "number at row 1"), ("lag,q, 1\n", "number at row 1"), ("lag,q,1.0\n", "number at row 1"),
         ("lag,q,1e3\n", "number at row 1"), ("lag,q,000000000000000000001\n", "number at row 1"), ("lag,q,00000000000000000001\n", None), ("lag,p,1000000000000001\n", "number at row 1"),
         ("transit,w,1000000000000001\n", "number at row 1"), ("lag,w,1000000000000000\n", None), ("lag,q,99999999999999999999\n", "number at row 1"), ("lag,q,1\nlag,q,x\n", "number at row 2"),
         ("lag,q,1\nlag,q,1\n", "repeated at row 2"), ("lag,w,1\ntransit,w,1\nlag,p,1\nlag,w,2\n", "repeated at row 4"), ("transit,w,1\ntransit,w,1\n", None), ("lag,w,5\ntransit,w,5\n", None),
         ('"lag","q","5"\n', None), ('lag,"q\n', "form at row 1"), ('lag,q,5\ntransit,"w",0040', None), ("lag,q,5\nlag,q,5\nlag,x\n", "repeated at row 2")]


def write(folder, files):
    os.makedirs(folder, exist_ok=True)
    for name, text in files.items():
        with open(os.path.join(folder, name), "w", encoding="ascii") as file:
            file.write(text)
    return folder


def test_files(tester):
    """Files by hand."""
    folder = write(os.path.join(tester.work, "files"), {"graph.json": GRAPH, "s.csv": "time,seen,value\n50,55,7\n"})
    for text, line in FILES:
        data = (text if line == "header" or "what" in text else "what,name,value\n" + text).encode()
        if line:
            tester.refuses(repr(text), folder, data, line)
        else:
            tester.expect(repr(text), (TABLE, "", 0), tester.replay(folder, data), data)
    for rows, line in ((99_999, None), (100_000, None), (100_001, "too many rows")):
        data = HEAD + b"transit,w,40\n" * rows
        tester.expect(f"{rows} rows", (b"", f"air: {line}\n", 3) if line else (TABLE, "", 0), tester.replay(folder, data))
        tester.refuses(f"{rows} rows and a bad one", folder, data + b"lag,q\n", "too many rows" if rows >= 100_000 else f"form at row {rows + 1}")
    tester.refuses("a bad row among too many", folder, HEAD + b"transit,w,40\n" * 5 + b"lag\n" + b"transit,w,40\n" * 100_000, "form at row 6")
    for size, wanted in ((airs.MOST_BYTES, (TABLE, "", 0)), (airs.MOST_BYTES + 1, (b"", "air: too long\n", 3)), (3 * airs.MOST_BYTES, (b"", "air: too long\n", 3))):
        tester.expect(f"{size} bytes", wanted, tester.replay(folder, HEAD + b"\n" * (size - len(HEAD))))
    print(f"{len(FILES) + 10} files by hand", flush=True)
    return folder


def spoil(pick, data):
    """The bytes with a change."""
    place = pick.randrange(len(data) + 1)
    new = pick.choice([b",", b"\n", b"\r\n", b'"', b'""', b" ", b"-", b"0", b"9" * 18, b"lag", b"q", b"w", b"\xff", b"x", b"transit,w,1\n", b"lag,p,1\n", b""])
    return data[:place] + new + data[place + pick.choice([0, 0, 1, 3]):]


def test_spoiled(tester, folder, pick, count):
    """Files with a change beside the plain reader: the same fault, or the right breach if a message is late."""
    network, faults = airs.Network(json.loads(GRAPH)), {}
    for number in range(count):
        rows = pick.choice([airs.within, airs.past])(pick, network)[:pick.choice([3, 30])]
        data = spoil(pick, airs.spelled(rows, pick))
        output, notes, status = tester.replay(folder, data)
        try:
            breach, wanted = network.breach(airs.rows_of(data, network)), None
        except airs.AirFault as fault:
            wanted = str(fault)
        faults[wanted and wanted.split(" at ")[0]] = faults.get(wanted and wanted.split(" at ")[0], 0) + 1
        if wanted:
            tester.expect(f"file {number}", (b"", f"air: {wanted}\n", 3), (output, notes, status), data)
        elif status == 4:
            tester.expect(f"file {number}", True, breach is not None and notes.endswith(f", air row {breach}\n") and not output, data)
        else:
            tester.expect(f"file {number}", (TABLE, True, True), (output, status in (0, 5), status == 0 or breach is not None), data)
    print(f"{count} files with a change: {', '.join(f'{found} {fault or chr(103) + chr(111) + chr(111) + chr(100)}' for fault, found in sorted(faults.items(), key=str))}", flush=True)


def test_words(tester, folder):
    """The words, and which of several faults is reported."""
    before = tester.passed
    write(folder, {"late.json": GRAPH.replace("s.csv", "late.csv"), "late.csv": "time,seen,value\n50,61,7\n", "cycle.json": GRAPH.replace('"d":60', '"d":0').replace('["r",0,"f",0]', '["f",0,"f",0]'),
                   "lost.json": GRAPH.replace("s.csv", "lost.csv"), "bad.json": GRAPH.replace("s.csv", "bad.csv"), "bad.csv": "time\n", "none.json": "{}", "slow.json": GRAPH.replace('"d":30', '"d":0'),
                   "air": "what,name,value\n", "wrong": "what\n"})
    os.makedirs(os.path.join(folder, "folder"), exist_ok=True)
    for words in ("graph.json air", "-- graph.json air", "graph.json -- air", "--workers 1 graph.json air", "graph.json --workers=64 air", "graph.json air --workers 4"):
        tester.expect(words, (TABLE, "", 0), tester.call(folder, "replay", *words.split()))
    log = tester.call(folder, "replay", "graph.json", "air", "--log")
    tester.expect("--log", (True, "", 0), (log[0].startswith(TABLE + b"log\nturn,p,"), *log[1:]))
    for words in ("--log graph.json air", "graph.json --log air", "--workers 2 --log -- graph.json air"):
        tester.expect(words, log, tester.call(folder, "replay", *words.split()))
    for words in ([], ["graph.json"], ["graph.json", "air", "air"], ["", "air"], ["graph.json", ""], ["--log", "--log", "graph.json", "air"], ["graph.json", "air", "--log=1"],
                  ["--workers", "0", "graph.json", "air"], ["--workers=65", "graph.json", "air"], ["--workers", "04", "graph.json", "air"], ["graph.json", "air", "--workers"],
                  ["--clock", "paced", "graph.json", "air"], ["--clock=machine", "graph.json", "air"], ["--air", "graph.json", "air"], ["-", "--", "graph.json", "air"]):
        output, notes, status = tester.call(folder, "replay", *words)
        tester.expect(f"the words {words}", (b"", 1, True), (output, status, notes.startswith("usage: ptides ") and notes.count("\n") == 1))
    for words, status, notes in [("graph.json none", 7, "read fault: air"), ("graph.json folder", 7, "read fault: air"), ("none none", 7, "read fault: graph"), ("none.json none", 2, "graph: member at top"),
                                 ("cycle.json none", 2, "graph: "), ("slow.json none", 2, "graph: infeasible w, "), ("lost.json none", 7, "read fault: sensor s"), ("bad.json none", 3, "sensor s: header"),
                                 ("late.json none", 4, "late s row 1, seen 61 past 60"), ("late.json wrong", 4, "late s row 1, seen 61 past 60"), ("graph.json wrong", 3, "air: header"),
                                 ("graph.json graph.json", 3, "air: header"), ("graph.json /dev/null", 3, "air: header")]:
        output, found, ending = tester.call(folder, "replay", *words.split())
        tester.expect(words, (b"", status, notes), (output, ending, found[:len(notes)]))
    with open(os.path.join(folder, "air"), "rb") as air:
        done = subprocess.run([tester.program, "replay", "graph.json", "/dev/stdin"], cwd=folder, stdin=air, capture_output=True, check=False)
    tester.expect("from standard input", (TABLE, b"", 0), (done.stdout, done.stderr, done.returncode))
    if os.access("/dev/full", os.W_OK):
        with open("/dev/full", "wb") as full:
            done = subprocess.run([tester.program, "replay", "graph.json", "air"], cwd=folder, stdin=subprocess.DEVNULL, stdout=full, stderr=subprocess.PIPE, check=False)
        tester.expect("a full disk", (b"write fault\n", 8), (done.stderr, done.returncode))
    print(f"{tester.passed - before} command lines", flush=True)


# Worked out by hand for the one message, which p sends when its clock shows 61. It has the time 80, and q has to have it by 125. p also looks
# at its clock at 55, when the row is seen, and at 1011, when it closes; q at 1046, when it closes; and each when the other does.
BY_HAND = [("lag,q,5\ntransit,w,40\n", ""), ("lag,q,6\ntransit,w,5\n", ""), ("lag,w,999\ntransit,w,1\ntransit,w,40\n", ""), ("transit,w,40\ntransit,w,41\nlag,p,6\nlag,q,0\n", ""),
           ("transit,w,64\n", ""), ("transit,w,950\n", "missed out at 140.0, reading 1011 past 140\n"), ("transit,w,951\n", "late r at 80.0, reading 1011 past 125, air row 1\n"),
           ("transit,w,985\n", "late r at 80.0, reading 1011 past 125, air row 1\n"), ("transit,w,986\n", "late r at 80.0, reading 1046 past 125, air row 1\n"),
           ("lag,q,0\nlag,p,5\ntransit,w,2000\n", "late r at 80.0, reading 1046 past 125, air row 3\n"), ("lag,p,64\n", "missed out at 140.0, reading 165 past 140\n"),
           ("lag,p,65\n", "late r at 80.0, reading 126 past 125, air row 1\n"), ("transit,w,0\nlag,p,100\n", "late r at 80.0, reading 161 past 125, air row 2\n"),
           ("lag,q,100\ntransit,w,1000\n", "late r at 80.0, reading 911 past 125, air row 1\n")]


def test_by_hand(tester, folder):
    for rows, notes in BY_HAND:
        status = {"late": 4, "miss": 5}.get(notes[:4], 0)
        tester.expect(repr(rows), (b"" if status == 4 else TABLE, notes, status), tester.replay(folder, HEAD + rows.encode()))
    log = tester.replay(folder, HEAD + b"lag,q,5\ntransit,w,40\n", "--log")[0].decode()
    tester.expect("the reading of the claim", ["126,126,1"], [found for found in re.findall(r"turn,q,(\d+,\d+,\d+)\n(?:(?!turn).*\n)*?claim,0,r,80,0\n", log)])


def test_costs(tester):
    """Time and memory beside those of run."""
    for what, folder, times in (("5 platforms in a ring, 40,000 events each", ring(tester.work, "ring", 40_000, 5), 1), ("4 platforms in a row", None, 3)):
        if folder is None:
            folder = row(tester, 20_000)
        with open(tester.air, "wb") as file:
            file.write(airs.spelled([("transit", name, number % 3 * 20 if times == 3 else 0) for number in range(20_000) for name in airs.Network(graph_of(folder)).delays]))
        output = os.path.join(tester.work, "output")
        run, replay, statuses = beside(lambda folder=folder: Cost(tester, folder, ["run", "graph.json"], output),
                                       lambda folder=folder: Cost(tester, folder, ["replay", "graph.json", tester.air], output), MOST_TIME)
        tester.expect(f"{what}: statuses", [run.status], statuses)
        time, memory = replay.seconds / run.seconds, replay.memory / run.memory
        print(f"{what}: run {run}; replay {replay}; {time:.2f} times as long, {memory:.2f} times as much memory", flush=True)
        tester.expect(f"{what}: at most {MOST_TIME} times as long", True, time <= MOST_TIME)
        tester.expect(f"{what}: at most {MOST_MEMORY} times as much memory", True, memory <= MOST_MEMORY)


def row(tester, events):
    """Four platforms in a row; on each an event each 50 microseconds is added to what comes, and sent on."""
    platforms, actors, wires, links = [f"p{number}" for number in range(4)], [], [], []
    for number, place in enumerate(platforms):
        actors += [every(f"e{number}", place, 50), {"name": f"a{number}", "platform": place, "kind": "add"}, {"name": f"d{number}", "platform": place, "kind": "delay", "d": 100},
                   {"name": f"w{number}", "platform": place, "kind": "send", "slack": 0} if number < 3 else {"name": "out", "platform": place, "kind": "actuator", "slack": 50}]
        wires += [[f"e{number}", 0, f"a{number}", 0], [f"r{number}" if number else "e0", 0, f"a{number}", 1], [f"a{number}", 0, f"d{number}", 0], [f"d{number}", 0, actors[-1]["name"], 0]]
        if number:
            actors.append({"name": f"r{number}", "platform": place, "kind": "receive"})
            links.append((f"w{number - 1}", f"r{number}", 40))
    return write_graph(os.path.join(tester.work, "row"), platforms, actors, wires, links, 50 * (events - 1))


def graph_of(folder):
    with open(os.path.join(folder, "graph.json"), encoding="ascii") as file:
        return json.load(file)


def main():
    signal.signal(signal.SIGTERM, lambda *_: sys.exit(143))
    tester, times, seed = Tester(sys.argv[1], sys.argv[2]), int(sys.argv[3]), int(sys.argv[4])
    pick = random.Random(seed)
    all_cases = list(cases(tester, seed, 60 * times))
    test_heads(tester, all_cases, pick)
    test_networks(tester, all_cases, pick, 400 * times)
    test_burst(tester)
    test_extremes(tester, [case for case in all_cases if case.network.delays][:40 * times])
    folder = test_files(tester)
    test_by_hand(tester, folder)
    test_spoiled(tester, folder, pick, 600 * times)
    test_words(tester, folder)
    test_costs(tester)
    print(f"{tester.passed} passed, {tester.failed} failed, {tester.skipped} skipped")
    sys.exit(1 if tester.failed else 0)


if __name__ == "__main__":
    main()
