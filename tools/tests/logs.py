"""Logs as test-audit.py sees them: cut into turns, read without any platform, and changed at one place."""
import collections
import re

MOST_BYTES = 67_108_864
KINDS = ["post", "row", "take", "claim", "sent"]


class Broken(Exception):
    """A rule that a log breaks, in one line."""


def ensure(holds, rule):
    if not holds:
        raise Broken(rule)


def lines_of(data):
    """The lines, each with its line feed. A rest without one is the last."""
    return re.findall(rb"[^\n]*\n|[^\n]+\Z", data)


class Log:
    """The bytes of a log, and where its head and its turns are."""

    def __init__(self, data):
        self.data = data
        self.lines = lines_of(data)
        # The number of lines before the first line `log`.
        self.at = self.lines.index(b"log\n") if b"log\n" in self.lines else None
        self.head = b"".join(self.lines[:self.at])
        self.begins = len(self.head) + len(b"log\n")
        # For each turn the number of its first line, from 1 in the file, and its text.
        self.turns = []
        if self.at is not None:
            for number, line in enumerate(self.lines[self.at + 1:], self.at + 2):
                if not self.turns or line.startswith(b"turn,"):
                    self.turns.append((number, line))
                else:
                    self.turns[-1] = self.turns[-1][0], self.turns[-1][1] + line

    def turns_of(self, platform):
        return [text for _, text in self.turns if text.startswith(f"turn,{platform},".encode())]

    def messages(self, word, name):
        """What this sender sent, or this receiver took, line by line."""
        front = f"{word},{name},".encode()
        return [line[len(front):] for line in self.lines[self.at + 1:] if line.startswith(front)]


class Reader:
    """Reads a log line by line, checks rules that need no platform, and gathers what doesn't depend on readings and turns."""

    def __init__(self, graph):
        self.graph = graph
        self.platform, self.first, self.reading, self.count, self.place = -1, 0, 0, 1, 0
        self.open, self.claimed = {}, 0
        self.rows, self.took, self.put = (collections.defaultdict(list) for _ in range(3))
        self.claims = [[] for _ in graph.platforms]

    def contents(self, log):
        """What the log tells: its head, and the rows, claims and messages in their order."""
        try:
            for line in log.lines[log.at + 1:]:
                word, *rest = line.decode("ascii").rstrip("\n").split(",")
                if word != "turn":
                    ensure(self.place <= KINDS.index(word), f"a line {word} is out of place")
                    ensure(self.count == 1, "something is done in a run of quiet turns")
                    self.place = KINDS.index(word)
                getattr(self, word)(*rest)
        except (ValueError, TypeError, KeyError, AttributeError) as error:
            raise Broken(f"the line {line!r} can't be read: {error}") from None
        ensure(not self.open, "a claim is never posted")
        for sender, receiver in self.graph.links:
            ensure(self.put[sender] == self.took[receiver] and self.put[sender][-1:] == [("end",)], f"the link of {sender}")
        return log.head, dict(self.rows), [sorted(claims) for claims in self.claims], dict(self.put)

    def turn(self, name, first, last, count):
        platform = self.graph.platforms.index(name)
        ensure(platform >= self.platform, f"a turn of {name} comes after one of a later platform")
        if platform > self.platform:
            ensure(not self.open, "a claim is never posted")
            self.platform, self.reading, self.claimed = platform, 0, 0
        first, last, self.count, self.place = int(first), int(last), int(count), 0
        ensure(self.reading <= first <= last, "a reading falls")
        ensure(self.count >= 1 and (self.count > 1 or first == last), "the count of a turn")
        self.reading = last

    def post(self, number):
        self.open.pop(int(number))

    def row(self, sensor, time, seen, value):
        ensure(int(seen) <= self.reading, f"a row of {sensor} is entered before it is seen")
        self.rows[sensor].append((int(time), int(seen), int(value)))

    def take(self, receiver, *message):
        self.took[receiver].append(message)

    def claim(self, number, actor, time, step):
        ensure(int(number) == self.claimed, "the number of a claim")
        offset = self.graph.offsets.get(actor)
        ensure(offset is None or self.reading > int(time) + offset, f"{actor} is claimed too early")
        self.claimed += 1
        self.open[int(number)] = actor
        self.claims[self.platform].append((actor, int(time), int(step)))

    def sent(self, sender, *message):
        self.put[sender].append(message)


class Spoiler:
    """Changes one number, one name, one line or the order of a log. `pick` is a `random.Random`."""

    def __init__(self, log, names, pick):
        self.log, self.names, self.pick = log, [name.encode() for name in names], pick

    def spoil(self):
        """What was changed, the bytes, and whether no lawful log can have them."""
        while True:
            change = self.pick.choices([self.number, self.name, self.line, self.order], [35, 20, 20, 25])[0]
            lines = list(self.log.lines)
            certain = change(lines)
            data = b"".join(lines)
            if data != self.log.data:
                return change.__name__, data, certain

    def place(self):
        """The index of a line, mostly after the head."""
        at = self.log.at if self.pick.random() < 0.9 else 0
        return self.pick.randrange(at, len(self.log.lines))

    def field(self, lines, wanted):
        """A line, a field of it that matches, and its fields; none if that line has no such field."""
        place = self.place()
        fields = lines[place].rstrip(b"\n").split(b",")
        found = [number for number, field in enumerate(fields) if bool(re.fullmatch(rb"-?\d+", field)) == wanted]
        return (place, self.pick.choice(found), fields) if found else (place, None, fields)

    def put(self, lines, place, fields):
        """Puts the line. What the line says is free in no line but those of turns."""
        is_turn = place > self.log.at and fields[0] == b"turn"
        lines[place] = b",".join(fields) + b"\n"
        return not is_turn or (len(fields) == 5 and fields[4] == b"1" and fields[2] != fields[3])

    def number(self, lines):
        place, number, fields = self.field(lines, True)
        if number is not None:
            old = int(fields[number])
            other = self.field(lines, True)
            fields[number] = self.pick.choice([
                str(old + 1), str(max(old - 1, 0)), "0", str(old + self.pick.randint(-30, 30)), str(2**64), str(-old), f"0{old}", f"+{old}",
                "", (other[2][other[1]] if other[1] is not None else b"9").decode()]).encode()
        return self.put(lines, place, fields)

    def name(self, lines):
        place, number, fields = self.field(lines, False)
        if number is not None:
            old = fields[number]
            fields[number] = self.pick.choice([self.pick.choice(self.names), old + b"x", old[:-1], old.swapcase(), b"end", b"turn", b"post"])
        turned = place > self.log.at and lines[place].startswith(b"turn,")
        return self.put(lines, place, fields) and not turned

    def line(self, lines):
        place = self.place()
        kind = self.pick.randrange(4)
        if kind == 0:
            del lines[place]
        elif kind == 1:
            lines.insert(place, lines[place])
        elif kind == 2:
            lines.insert(self.place(), lines[place])
        else:
            lines.insert(place, b"\n")
        return kind == 3

    def order(self, lines):
        place, other = self.place(), self.place()
        kind = self.pick.randrange(4)
        if kind == 0 and place + 1 < len(lines):
            lines[place], lines[place + 1] = lines[place + 1], lines[place]
        elif kind == 1:
            lines.insert(other, lines.pop(place))
        elif kind == 2 and len(self.log.turns) > 1:
            turns = [text for _, text in self.log.turns]
            number = self.pick.randrange(len(turns) - 1)
            turns[number], turns[number + 1] = turns[number + 1], turns[number]
            lines[self.log.at + 1:] = lines_of(b"".join(turns))
        else:
            fields = lines[place].rstrip(b"\n").split(b",")
            self.pick.shuffle(fields)
            lines[place] = b",".join(fields) + b"\n"
        return False
