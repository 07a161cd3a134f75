"""Called by test-audit.sh, whose head says what it does: test-audit.py PROGRAM FOLDER TIMES SEED."""
import json
import os
import random
import re
import signal
import subprocess
import sys

sys.path.insert(0, os.path.join(os.path.dirname(os.path.abspath(__file__)), "tests"))
from logs import MOST_BYTES, Broken, Log, Reader, Spoiler  # noqa: E402
from slow_logs import test_slow  # noqa: E402
import testers  # noqa: E402


class Graph:
    """What a log is read by: names, links and offsets of the graph in a folder."""

    def __init__(self, tester, folder):
        with open(os.path.join(folder, "graph.json"), encoding="utf-8") as file:
            graph = json.load(file)
        self.platforms = graph["platforms"]
        self.links = [(link["from"], link["to"]) for link in graph["links"]]
        self.names = self.platforms + [actor["name"] for actor in graph["actors"]]
        self.kinds = {actor["name"]: actor["kind"] for actor in graph["actors"]}
        margins = tester.call(folder, "check", "graph.json")[0].splitlines()[1:]
        # The offset of lanes is the greatest of their cells.
        self.offsets = {name: int(offset) for name, offset, _ in (line.decode().split(",") for line in margins)
                        if offset != "-" and self.kinds[name] != "lanes"}


class Tester(testers.Tester):
    """Has logs judged."""

    def __init__(self, program, work):
        super().__init__(program, work, "log")
        self.log = os.path.join(work, "log")

    def audit(self, folder, data):
        with open(self.log, "wb") as file:
            file.write(data)
        return self.call(folder, "audit", "graph.json", self.log)

    def expect_lawful(self, what, folder, data):
        self.expect(what, (b"lawful\n", "", 0), self.audit(folder, data), data)

    def expect_refused(self, what, folder, data, why):
        self.expect(what, (b"", f"unlawful: {why}\n", 10), self.audit(folder, data), data)

    def run(self, folder, clock, workers):
        """What `run --log` writes; none if the run ends otherwise than with 0 or 5, as a late row or message makes it."""
        words = ["run", "graph.json", "--log", "--clock", clock, "--workers", str(workers)]
        output, notes, status = self.call(folder, *words)
        if status not in (0, 5):
            self.expect(f"{' '.join(words)} in {folder}", True, status in (4, 6) and not output)
        return output if status in (0, 5) else None


class Case:
    """A graph in a folder with a lawful log of it, and judgements on other logs."""

    def __init__(self, tester, folder, data):
        self.tester, self.folder, self.graph, self.log = tester, folder, Graph(tester, folder), Log(data)
        self.contents = Reader(self.graph).contents(self.log)
        self.same = self.refused = 0

    def judge(self, what, data, certain):
        """Whether what the audit says of this log can be right; if no lawful log can have these bytes, it has to refuse them."""
        output, notes, status = self.tester.audit(self.folder, data)
        try:
            if status == 0 and output == b"lawful\n" and not notes:
                fault = self.accepted(data, certain)
                self.same += 1
            else:
                found = re.fullmatch(r"unlawful: (.*)\n", notes)
                fault = f"status {status}, {notes!r}" if status != 10 or output or not found else self.verdict(Log(data), found[1])
                self.refused += 1
        except Broken as broken:
            fault = str(broken)
        self.tester.expect(f"{what} in {self.folder}", None, fault, data)

    def accepted(self, data, certain):
        if certain:
            return "no lawful log has these bytes"
        return None if Reader(self.graph).contents(Log(data)) == self.contents else "it is lawful, and says something else"

    def verdict(self, log, why):
        """What is wrong with this verdict; none if the text of the log is as it says."""
        word, _, rest = why.partition(" ")
        if why == "too long" or len(log.data) > MOST_BYTES:
            return None if why == "too long" and len(log.data) > MOST_BYTES else why
        if why == "no log" or log.at is None:
            return None if why == "no log" and log.at is None else why
        if word == "turn":
            return self.turn(log, rest)
        if word == "unfinished":
            return self.unfinished(log, rest)
        if word == "link":
            return self.unlinked(log, rest)
        return None if why == "table" and log.head != self.log.head else why

    def turn(self, log, rest):
        found = re.fullmatch(r"at line (\d+)", rest)
        numbers = [number for number, _ in log.turns]
        if not found or int(found[1]) not in numbers:
            return f"no turn begins: turn {rest}"
        # The turns before the change may follow each other.
        count = numbers.index(int(found[1])) + 1
        is_new = [text for _, text in log.turns[:count]] != [text for _, text in self.log.turns[:count]]
        return None if is_new else f"up to this turn all is as in the lawful log: turn {rest}"

    def unfinished(self, log, name):
        platforms = self.graph.platforms
        if name not in platforms or log.turns_of(name) == self.log.turns_of(name):
            return f"all turns of the platform are there: unfinished {name}"
        # A platform without a turn isn't finished.
        early = [other for other in platforms[:platforms.index(name)] if not log.turns_of(other)]
        return f"{early[0]} comes before: unfinished {name}" if early else None

    def unlinked(self, log, name):
        for sender, receiver in self.graph.links:
            differs = log.messages("sent", sender) != log.messages("take", receiver)
            if sender == name or differs:
                return None if sender == name and differs else f"link {name}"
        return f"no link: {name}"


def runs(pick, until):
    """Clocks and workers."""
    yield "paced", pick.choice([1, 4])
    for step in (max(1, until // pick.choice([20, 300])), max(1, until // 3)):
        yield f"step:{pick.choice([0, 1, 100])}:{step}", pick.choice([1, 64])
    for workers in (1, 2, pick.choice([3, 4, 8]), 64):
        yield "machine", workers


def until_of(folder):
    with open(os.path.join(folder, "graph.json"), encoding="utf-8") as file:
        return json.load(file)["until"]


def test_lawful(tester, seed, times):
    """Logs of examples and random graphs. Returns those of which others can be made by a change, by their folder."""
    pick, found, count = random.Random(seed), [], tester.passed
    folders = testers.examples()
    for folder in [*folders, *testers.graphs(tester, seed, 60 * times)]:
        until = until_of(folder)
        for clock, workers in runs(pick, until):
            # A run by the machine's clock takes as long as its horizon.
            if clock == "machine" and until > 250_000:
                continue
            data = tester.run(folder, clock, workers)
            if data is not None:
                tester.expect_lawful(f"{folder} by {clock} and {workers} workers", folder, data)
                if 20 < data.count(b"\n") < 4000:
                    found.append((folder, data))
    print(f"{tester.passed - count} of the logs of {len(folders)} examples and {60 * times} random graphs are lawful", flush=True)
    return found


def test_changed(tester, logs, seed, count):
    """Logs with one change."""
    pick, same, refused, kinds = random.Random(seed), 0, 0, {}
    chosen = pick.sample(logs, min(len(logs), max(40, count // 50)))
    for number, (folder, data) in enumerate(chosen):
        case = Case(tester, folder, data)
        spoiler = Spoiler(case.log, case.graph.names, pick)
        for _ in range(count * (number + 1) // len(chosen) - count * number // len(chosen)):
            what, changed, certain = spoiler.spoil()
            before = case.same
            case.judge(f"another {what}", changed, certain)
            kinds[what, case.same > before] = kinds.get((what, case.same > before), 0) + 1
        same, refused = same + case.same, refused + case.refused
    kept = ", ".join(f"{found} by another {what}" for (what, is_same), found in sorted(kinds.items()) if is_same)
    print(f"{same + refused} logs with one change: {refused} refused; {same} say the same{': ' if kept else ''}{kept}", flush=True)


def test_cut(tester, logs, seed):
    """Logs that end too early: a short one at each place, others at some."""
    pick = random.Random(seed)
    shortest = min(logs, key=lambda entry: len(entry[1]))
    count = 0
    for folder, data in [shortest, *pick.sample(logs, min(len(logs), 10))]:
        case = Case(tester, folder, data)
        places = [pick.randrange(len(data)) for _ in range(40)]
        if (folder, data) == shortest:
            places = range(min(len(data), 1000))
        for place in places:
            count += 1
            log = Log(data[:place])
            if place < case.log.begins:
                tester.expect_refused(f"{folder} cut at {place}", folder, data[:place], "no log")
            elif data[place - 1:place] != b"\n":
                tester.expect_refused(f"{folder} cut at {place}", folder, data[:place], f"turn at line {log.turns[-1][0]}")
            elif not log.turns:
                tester.expect_refused(f"{folder} cut at {place}", folder, data[:place], f"unfinished {case.graph.platforms[0]}")
            else:
                case.judge(f"cut at {place}", data[:place], False)
    print(f"{count} logs that end too early", flush=True)


def test_ends(tester, logs, seed):
    """Other ends of lines and of the file, and files that are put together."""
    pick, before = random.Random(seed), tester.passed
    for folder, data in pick.sample(logs, min(len(logs), 10)):
        log, graph = Log(data), Graph(tester, folder)
        head, turns, last = data[:log.begins], data[log.begins:], f"turn at line {log.turns[-1][0]}"
        _, other = pick.choice(logs)
        for what, changed, why in [
                ("no last line feed", data[:-1], last), ("a further line feed", data + b"\n", last), ("twice", data + data, last),
                ("and another log", data + other, last), ("the turns twice", data + b"log\n" + turns, last),
                ("CR LF", data.replace(b"\n", b"\r\n"), "no log"), ("CR LF after log", head + turns.replace(b"\n", b"\r\n"), f"turn at line {log.turns[0][0]}"),
                ("a space before log", head[:-4] + b" log\n" + turns, "no log"), ("a byte order mark", b"\xef\xbb\xbf" + data, "table"),
                ("no tables", b"log\n" + turns, "table"), ("a line more before log", head[:-4] + b"\n" + head[-4:] + turns, "table"),
                ("no turns", head, f"unfinished {graph.platforms[0]}"), ("log alone", b"log\n", f"unfinished {graph.platforms[0]}"),
                ("empty", b"", "no log"), ("a line feed", b"\n", "no log"), ("log without line feed", b"log", "no log"),
                ("junk", pick.randbytes(1000).replace(b"\nlog\n", b""), "no log"), ("log and junk", b"log\n" + b"\x00" * 1000, "turn at line 2")]:
            tester.expect_refused(f"{what} in {folder}", folder, changed, why)
    # What is too long is refused before anything in it is looked at.
    folder, data = logs[0]
    for size, why in ((MOST_BYTES, "no log"), (MOST_BYTES + 1, "too long"), (2 * MOST_BYTES, "too long")):
        with open(tester.log, "wb") as file:
            file.truncate(size)
        tester.expect(f"{size} bytes", (b"", f"unlawful: {why}\n", 10), tester.call(folder, "audit", "graph.json", tester.log))
    print(f"{tester.passed - before} files with other ends, other lengths or parts of several logs", flush=True)


BASIC = """{"ptides":1,"until":1000,"clock_error":0,
 "platforms":["p"],
 "actors":[
  {"name":"s","platform":"p","kind":"sensor","file":"s.csv","bound":10},
  {"name":"x","platform":"p","kind":"scale","num":2,"den":1},
  {"name":"d","platform":"p","kind":"delay","d":100},
  {"name":"out","platform":"p","kind":"actuator","slack":0}],
 "wires":[["s",0,"x",0],["x",0,"d",0],["d",0,"out",0]],
 "links":[]}
"""


def test_words(tester):
    """The words, which of several faults is reported, and where a log may come from and the answer go."""
    folder, before = os.path.join(tester.work, "words"), tester.passed
    os.makedirs(os.path.join(folder, "folder"))
    files = {"graph.json": BASIC, "s.csv": "time,seen,value\n50,55,7\n", "late.json": BASIC.replace("s.csv", "late.csv"), "late.csv": "time,seen,value\n50,61,7\n",
             "cycle.json": BASIC.replace('"d":100', '"d":0').replace('["s",0,"x",0]', '["d",0,"x",0]'), "lost.json": BASIC.replace("s.csv", "lost.csv"), "none.json": "{}"}
    for name, text in files.items():
        with open(os.path.join(folder, name), "w", encoding="ascii") as file:
            file.write(text)
    data = tester.run(folder, "paced", 1)
    with open(os.path.join(folder, "log"), "wb") as file:
        file.write(data)
    for words in (["graph.json", "log"], ["--", "graph.json", "log"], ["graph.json", "--", "log"]):
        tester.expect(" ".join(words), (b"lawful\n", "", 0), tester.call(folder, "audit", *words))
    for words in ([], ["graph.json"], ["graph.json", "log", "log"], ["", "log"], ["graph.json", ""], ["--log", "graph.json", "log"], ["graph.json", "log", "--log"],
                  ["--workers", "2", "graph.json", "log"], ["--clock", "paced", "graph.json", "log"], ["--workers=2", "graph.json", "log"]):
        output, notes, status = tester.call(folder, "audit", *words)
        tester.expect(f"the words {words}", (b"", 1, True), (output, status, notes.startswith("usage: ptides ") and notes.count("\n") == 1))
    for words, status, notes in [("graph.json none", 7, "read fault: log"), ("graph.json folder", 7, "read fault: log"), ("none none", 7, "read fault: graph"),
                                 ("none.json none", 2, "graph: member at top"), ("cycle.json none", 2, "graph: "), ("lost.json none", 7, "read fault: sensor s"),
                                 ("late.json none", 4, "late s row 1, seen 61 past 60"), ("late.json log", 4, "late s row 1, seen 61 past 60"),
                                 ("graph.json graph.json", 10, "unlawful: no log"), ("graph.json /dev/null", 10, "unlawful: no log")]:
        output, found, ending = tester.call(folder, "audit", *words.split())
        tester.expect(words, (b"", status, notes), (output, ending, found[:len(notes)]))
    with open(os.path.join(folder, "log"), "rb") as log:
        done = subprocess.run([tester.program, "audit", "graph.json", "/dev/stdin"], cwd=folder, stdin=log, capture_output=True)
    tester.expect("from standard input", (b"lawful\n", b"", 0), (done.stdout, done.stderr, done.returncode))
    if os.access("/dev/full", os.W_OK):
        with open("/dev/full", "wb") as full:
            done = subprocess.run([tester.program, "audit", "graph.json", "log"], cwd=folder, stdin=subprocess.DEVNULL, stdout=full,
                                  stderr=subprocess.PIPE)
        tester.expect("a full disk", (b"write fault\n", 8), (done.stderr, done.returncode))
    # The same log, and another row.
    with open(os.path.join(folder, "s.csv"), "w", encoding="ascii") as file:
        file.write("time,seen,value\n50,55,8\n")
    tester.expect("another row", (b"", "unlawful: turn at line 4\n", 10), tester.call(folder, "audit", "graph.json", "log"))
    print(f"{tester.passed - before} command lines", flush=True)


def main():
    signal.signal(signal.SIGTERM, lambda *_: sys.exit(143))
    tester, times, seed = Tester(sys.argv[1], sys.argv[2]), int(sys.argv[3]), int(sys.argv[4])
    logs = test_lawful(tester, seed, times)
    test_changed(tester, logs, seed, 2000 * times)
    test_cut(tester, logs, seed)
    test_ends(tester, logs, seed)
    test_words(tester)
    test_slow(tester)
    print(f"{tester.passed} passed, {tester.failed} failed, {tester.skipped} skipped")
    sys.exit(1 if tester.failed else 0)


main()
