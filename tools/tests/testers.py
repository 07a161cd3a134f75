"""What test-audit.py and test-replay.py share: calls of the program, which are counted, and the random graphs."""
import glob
import importlib.util
import os
import subprocess
import tempfile

MOST_SECONDS = 300
TOOLS = os.path.dirname(os.path.dirname(os.path.abspath(__file__)))


class Tester:
    """Calls the program, and counts what is as it should be. `kept` is the name of what is stored if it isn't."""

    def __init__(self, program, work, kept):
        self.program, self.work, self.kept = program, work, kept
        self.passed = self.failed = self.skipped = 0

    def call(self, folder, *words):
        """The output, the notes and the status of a command."""
        done = subprocess.run([self.program, *words, *blocks_of(folder)], cwd=folder, stdin=subprocess.DEVNULL, capture_output=True, timeout=MOST_SECONDS)
        return done.stdout, done.stderr.decode("utf-8", "replace"), done.returncode

    def fail(self, what, data=None):
        self.failed += 1
        if data is not None:
            kept = tempfile.NamedTemporaryFile(prefix="ptides-", suffix=f".{self.kept}", delete=False)
            with kept:
                kept.write(data)
            what += f" (the {self.kept} is {kept.name})"
        print(f"failed: {what}", flush=True)

    def expect(self, what, wanted, found, data=None):
        if wanted == found:
            self.passed += 1
        else:
            self.fail(f"{what}: wanted {wanted!r:.2000}, found {found!r:.2000}", data)


def module(name):
    """A script of tools as a module."""
    specification = importlib.util.spec_from_file_location(name.replace("-", "_"), os.path.join(TOOLS, f"{name}.py"))
    found = importlib.util.module_from_spec(specification)
    specification.loader.exec_module(found)
    return found


def blocks_of(folder):
    """`--blocks FILE`, if the words of an example have it."""
    path = os.path.join(folder, "words")
    if not os.path.exists(path):
        return []
    with open(path, encoding="ascii") as file:
        words = file.read().splitlines()
    at = words.index("--blocks") if "--blocks" in words else len(words)
    return words[at:at + 2]


def examples():
    """The folders of examples whose files are all stored."""
    top = os.path.dirname(TOOLS)
    found = sorted(glob.glob(f"{top}/examples/*/graph.json") + glob.glob(f"{top}/examples/idioms/*/graph.json"))
    return [os.path.dirname(name) for name in found if not glob.glob(f"{os.path.dirname(name)}/make.py")]


def graphs(tester, seed, count):
    """The folders of random graphs, one after the other."""
    make = module("make-random-graph").make
    for number in range(seed, seed + count):
        place = os.path.join(tester.work, f"graph-{number}")
        make(number, place)
        yield place
