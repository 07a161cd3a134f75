"""Files that aren't the log of a graph."""
from __future__ import annotations

import json
import re

from ptides import limits, program
from ptides.companion import read
from ptides.explain.command_line import at_word, plain_words, read_fault
from ptides.explain.findings import Finding, Source, Spot, length_of
from ptides.formulas.option import file_in, words_of


class Log:
    """A file that should be a log of a graph, and why it is none."""

    def __init__(self, path: str, graph: bytes, words: list[str]):
        self.claims, self.blocks = limits.claims_in(words), words_of(file_in(words))
        self.source = Source(path, read(path, limits.log_bytes_limit(self.claims) + 1).decode("utf-8", errors="replace"))
        self.lines, self.graph = self.source.text.split("\n"), graph

    def at(self, index: int, label: str, *helps: str) -> Finding:
        """A line, by its index."""
        start = sum(len(line) + 1 for line in self.lines[:index])
        expected = "what `ptides run --log` writes for this graph and these sensor files, by any clock"
        return Finding(Spot(self.source, start, start + len(self.lines[index]), label), expected, list(helps))

    def no_log(self) -> Finding:
        """The last line."""
        better = "its lines end with CR LF: it was changed on its way" if "\r\n" in self.source.text else "`ptides run` writes the log only with `--log`"
        return self.at(max(0, len(self.lines) - 2), "no line up to here is `log`, which comes between the tables and the turns", better)

    def turn(self, line: str) -> Finding:
        """The turn that may not follow, and what is often the cause."""
        index = int(line) - 1
        after = next((number for number in range(index + 1, len(self.lines)) if self.lines[number].startswith("turn,")), len(self.lines))
        if "\r" in self.lines[index]:
            better = "its lines end with CR LF: it was changed on its way"
        elif after == len(self.lines) and self.lines[-1]:
            better = "the file ends in the middle of a line: the rest of it is missing"
        elif any(each.startswith("actuator,") for each in self.lines[index:after]):
            better = "another log begins in the same file"
        else:
            better = "it was changed, or it is the log of another graph or of other rows"
        return self.at(index, "no turn that may follow those before, up to the next line `turn`", better)

    def unfinished(self, name: str) -> Finding:
        """The last line of the platform's turns."""
        last, inside = len(self.lines) - 2, False
        for index, line in enumerate(self.lines[:-1]):
            inside = line.startswith(f"turn,{name},") or inside and not line.startswith("turn,")
            last = index if inside else last
        return self.at(last, f"`{name}` has something left to do after its last turn, or it has none", "the end of the file is missing, or the last turns of this platform are")

    def link(self, sender: str) -> Finding:
        """The first message that was sent and not taken, or taken and not sent."""
        receiver = next(link["to"] for link in json.loads(self.graph)["links"] if link["from"] == sender)
        sent, taken = ([(index, line.split(",", 2)[2]) for index, line in enumerate(self.lines) if line.startswith(front)]
                       for front in (f"sent,{sender},", f"take,{receiver},"))
        same = next((number for number, (one, other) in enumerate(zip(sent, taken)) if one[1] != other[1]), min(len(sent), len(taken)))
        if same < len(sent):
            return self.at(sent[same][0], f"`{receiver}` takes " + (f"`{taken[same][1]}` at line {taken[same][0] + 1}" if same < len(taken) else "no further message"))
        return self.at(taken[same][0], f"`{sender}` sends no further message")

    def table(self, _: str = "") -> Finding:
        """The first line that isn't the meaning's."""
        tables = program.run(["meaning", "/dev/stdin", *limits.words_of(self.claims), *self.blocks], given=self.graph).output.splitlines() + ["log"]
        index = next(number for number, line in enumerate(tables) if self.lines[number] != line)
        return self.at(index, f"`ptides meaning` has `{tables[index]}` here" if tables[index] != "log" else "the tables of the meaning have ended")


def log_fault(line: str, words: list[str], data: bytes) -> Finding:
    """What is wrong with a log."""
    path, claims = plain_words(words)[2], limits.claims_in(words)
    if line == "read fault: log":
        return read_fault(None, words, path, "", "log")
    if line == "unlawful: too long":
        length, most = length_of(path), limits.log_bytes_limit(claims)
        return at_word(words, words.index(path), f"this file has {length.text}", f"a log of at most {most:,} bytes",
                       f"a lower `until` or fewer rows give a shorter one; or allow it: {limits.option_for(limits.claims_for(log_bytes=length.size))}")
    found = re.fullmatch(r"unlawful: (no log|turn|unfinished|link|table)(?: at line)? ?(\w*)", line)
    log = Log(path, data, words)
    return getattr(log, found[1].replace(" ", "_"))(*([found[2]] if found[2] else []))
