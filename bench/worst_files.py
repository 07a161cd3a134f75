"""Changes of logs and of air files, with which worst.py and worst_search.py try `audit` and `replay`.

A change of a log takes the turns of a platform, each a list of lines, and gives other turns. `audit` has to judge all of them, whether
they are lawful or not."""
import os
import sys

from hard_graph import LONGEST

sys.path.insert(0, os.path.join(os.path.dirname(os.path.abspath(__file__)), "../tools/tests"))
from logs import Log  # noqa: E402

# A turn that isn't made by threads sends so many messages at most.
MOST_SENT = 64


def word_of(line):
    return line.split(b",", 1)[0]


def without(turn, *words):
    return [line for line in turn if word_of(line) not in words]


def only(turn, *words):
    return [line for line in turn if word_of(line) in words]


def empty(turn):
    """A turn at the same reading in which nothing is done."""
    name, reading = turn[0].split(b",")[1], turn[0].split(b",")[3]
    return [b"turn,%s,%s,%s,1\n" % (name, reading, reading)]


def posts_in_reverse(turns, _dice):
    """The results of each turn are posted from the last to the first."""
    return [turn[:1] + only(turn, b"post")[::-1] + without(turn[1:], b"post") for turn in turns]


def sends_held_back(turns, dice):
    """All messages are sent after the last turn that has one, link by link, from the last link or in any order of links."""
    sending = [number for number, turn in enumerate(turns) if any(not line.endswith(b",end\n") for line in only(turn, b"sent"))]
    if not sending:
        return turns
    place = sending[-1] + 1
    held = [line for turn in turns[:place] for line in only(turn, b"sent")]
    senders = sorted({line.split(b",")[1] for line in held}, reverse=True)
    if dice.random() < 0.5:
        dice.shuffle(senders)
    held.sort(key=lambda line: senders.index(line.split(b",")[1]))
    many = dice.choice([1, 8, MOST_SENT])
    new = [empty(turns[place - 1]) + held[number:number + many] for number in range(0, len(held), many)]
    return [without(turn, b"sent") for turn in turns[:place]] + new + turns[place:]


def takes_without_claims(turns, dice):
    """From some turn on nothing is posted, claimed or sent: rows enter and messages are taken while a claim is open."""
    claiming = [number for number, turn in enumerate(turns) if only(turn, b"claim")]
    if not claiming:
        return turns
    place = claiming[dice.choice([0, 0, 1, dice.randrange(len(claiming))]) % len(claiming)] + 1
    return turns[:place] + [without(turn, b"post", b"claim", b"sent") for turn in turns[place:]]


def one_by_one(turns, _dice):
    """The rows and messages of a turn come in turns of their own before it, as far as its reading allows."""
    new = []
    for turn in turns:
        early = only(turn, b"row", b"take") if not only(turn, b"post") else []
        new += [empty(turn) + [line] for line in early[:-1]]
        new.append([line for line in turn if line not in early[:-1]])
    return new


def quiet_between(turns, _dice):
    """Between two turns in which something happens comes one in which nothing does."""
    return [part for turn, then in zip(turns, turns[1:] + [[]]) for part in ([turn, empty(turn)] if len(turn) > 1 and len(then) > 1 else [turn])]


LOG_CHANGES = {change.__name__: change for change in (posts_in_reverse, sends_held_back, takes_without_claims, one_by_one, quiet_between)}


def changed_log(data, names, dice):
    """The bytes of a log after these changes, one after another."""
    log = Log(data)
    if log.at is None:
        return data
    lines, platforms = log.data[log.begins:].splitlines(keepends=True), []
    for line in lines:
        if line.startswith(b"turn,"):
            name = line.split(b",")[1]
            if not platforms or platforms[-1][0] != name:
                platforms.append((name, []))
            platforms[-1][1].append([line])
        elif platforms:
            platforms[-1][1][-1].append(line)
    found = [turns for _, turns in platforms]
    for change in names:
        found = [LOG_CHANGES[change](turns, dice) for turns in found]
    return log.data[:log.begins] + b"".join(line for turns in found for turn in turns for line in turn)


def lags(graph, dice):
    """Each clock is behind by a number of its own, also past the clock error."""
    numbers = [0, 1, graph.clock_error, 1000, LONGEST]
    graph.air = [row for row in graph.air if row[0] != "lag"] + [("lag", name, dice.choice(numbers)) for name in graph.platforms]


def transits(graph, dice):
    """The messages of a sender take as long as its link allows, no time, less and less, or more."""
    if not graph.links:
        return
    link = dice.choice(graph.links)
    count, delay = dice.choice([10, 1000, 5000]), link["delay"]
    times = dice.choice([[delay] * count, [0] * count, [delay * (count - k) // count for k in range(count)],
                         [dice.randint(0, delay) for _ in range(count)], [delay + 1] * count, [0, LONGEST] * (count // 2)])
    graph.air = [row for row in graph.air if row[:2] != ("transit", link["from"])] + [("transit", link["from"], time) for time in times]


AIR_CHANGES = [lags, transits]
