"""Faults of time: what can't be in time, and which changes help, which is tried by asking the program."""
from __future__ import annotations

import json
import re
from typing import Optional

from ptides import horizon, limits, misses, program
from ptides.explain.findings import Finding, count
from ptides.explain.graph import Change, Graph, check, checked
from ptides.explain.json_text import Node

def after(graph: Graph, line: str, *changes: Change) -> str:
    """What `check` says after a change; nothing if it says the same line still, or that the change isn't allowed."""
    done, subject = check(graph, *changes), " ".join(line.split()[:3]).rstrip(",")
    if done.status == 0:
        return ": then `check` answers 0"
    is_next = re.match("graph: (infeasible|cycle) ", done.line) and not done.line.startswith(subject)
    return f": then the next line is `{done.line}`" if is_next else ""


def with_delay(graph: Graph, wire: Node, time: int) -> list[Change]:
    """The change that puts a `delay` into a wire."""
    new = next(each for each in (f"hold{number or ''}" for number in range(2000)) if each not in graph.names)
    start, output, end, entry = (graph.source.text[item.start:item.end] for item in wire.items())
    place, last = graph.place(wire.items()[0].text()).text(), graph.actors[-1].end
    return [(last, last, f',{{"name":"{new}","platform":"{place}","kind":"delay","d":{time}}}'),
            (wire.start, wire.end, f'[{start},{output},"{new}",0],["{new}",0,{end},{entry}]')]


def cycle(graph: Graph, line: str) -> Finding:
    """A cycle that takes no time: its edges, and a delay that ends it."""
    names = line.split()[2:]
    pairs = list(zip(names, names[1:] + names[:1]))
    edges = {**dict(zip(graph.linked, graph.links)), **{(wire[0], wire[2]): node for wire, node in zip(graph.wired, graph.wires)}}
    notes = [graph.spot(edges[pair], f"{pair[0]} -> {pair[1]}") for pair in pairs[:8]]
    none = next((graph.actor(each).get("d") for each in names if graph.kind(each) == "delay"), None)
    expected, text = "a delay of at least 1 on each cycle", f"{' -> '.join(names + names[:1])} takes no time"
    if none:
        better = "raise it to 1 or more" + after(graph, line, (none.start, none.end, "1"))
        return graph.found(none, f"a `delay` of 0 takes no time: {text}", expected, better, notes=notes)
    start, end = next(pair for pair in pairs if edges[pair].kind == "an array")
    better = f"put a `delay` of at least 1 between `{start}` and `{end}`" + after(graph, line, *with_delay(graph, edges[start, end], 1))
    return graph.found(edges[pairs[0]], text, expected, better, notes=notes[1:])


def ring(graph: Graph, line: str) -> Finding:
    """A ring of senders for which no slacks are enough: its links, and which changes `slacks` takes."""
    names, gain = re.fullmatch(r"graph: ring ((?:\w+ )*\w+), gain (\d+)", line).groups()
    around = [node for name in names.split() for node, (start, _) in zip(graph.links, graph.linked) if start == name]
    offers = [(f"lower the delay of the link from `{node.get('from').text()}` to {int(node.get('delay').value) - int(gain)}",
               (node.get("delay").start, node.get("delay").end, str(int(node.get("delay").value) - int(gain))))
              for node in around if int(node.get("delay").value) >= int(gain)]
    answers = [text + ": then `slacks` answers 0" for text, change in offers
               if program.run(["slacks", "/dev/stdin", *graph.blocks], given=graph.edited(change)).status == 0]
    return graph.found(around[0], f"around the links of {names.replace(' ', ', ')} the slacks that are needed grow by {gain}",
                      "delays on the way that make up for the links, their clock errors and 1 for each link",
                      f"raise the delays between these links by {gain} in all", *answers, notes=[graph.spot(each, "and this link") for each in around[1:]])


def upstream(graph: Graph, last: str) -> list[str]:
    """The actors that lead to this one over wires, and this one."""
    found = [last]
    for each in found:
        found += [start for start in dict.fromkeys(wire[0] for wire in graph.wired if wire[2] == each) if start not in found]
    return found


def infeasible(graph: Graph, line: str) -> Finding:
    """A sender that can't send in time: by how much, what sets its offset, and which changes `check` takes."""
    sender, offset, slack = re.fullmatch(r"graph: infeasible (\w+), offset (-?\d+), slack (\d+)", line).groups()
    short, before = int(offset) + 1 - int(slack), upstream(graph, sender)
    into, last = next((node, wire[0]) for node, wire in zip(graph.wires, graph.wired) if wire[2] == sender)
    delays = [(f"the delay of `{each}`", graph.actor(each).get("d")) for each in before if graph.kind(each) == "delay"]
    bounds = [(f"the bound of `{each}`", graph.actor(each).get("bound")) for each in before if graph.kind(each) == "sensor"]
    bounds += [(f"the delay of the link to `{end}`", node.get("delay")) for node, (_, end) in zip(graph.links, graph.linked) if end in before]

    def change(each: Node, by: int) -> Change:
        return each.start, each.end, str(int(each.value) + by)

    # What sets the offset is what makes it grow.
    more = f"graph: infeasible {sender}, offset {int(offset) + 1},"
    guilty = [each for each in bounds if check(graph, change(each[1], 1)).line.startswith(more)]
    raised = [(f"the slack of `{sender}`", graph.actor(sender).get("slack")), *delays]
    offers = [(f"raise {text} from {each.value} to {int(each.value) + short}", [change(each, short)]) for text, each in raised]
    offers.append((f"put a `delay` of {short} between `{last}` and `{sender}`", with_delay(graph, into, short)))
    offers += [(f"lower {text} from {each.value} to {int(each.value) - short}", [change(each, -short)])
               for text, each in guilty if int(each.value) >= short]
    answers = [(text, after(graph, line, *changes)) for text, changes in offers]
    label = f"too small by {short}: `{sender}` may have to wait until {int(offset) + 1} after the time of an event"
    return graph.found(raised[0][1], label, f"a slack of at least the offset and 1, {int(offset) + 1}", *[text + then for text, then in answers if then],
                      notes=[graph.spot(each, f"{text} sets the offset of `{sender}`, {offset}") for text, each in guilty])


def margins(graph: Graph, names: list[str], *changes: Change) -> dict[str, int]:
    """The margins of these actuators after a change."""
    table = [row.split(",") for row in check(graph, *changes).output.splitlines()]
    return {name: int(margin) for name, _, margin in table if name in names and margin != "-"}


def missed(graph: Graph, notes: list[str]) -> Optional[Finding]:
    """The actors whose events were missed: how many, and the slack that is enough. Nothing if the graph has other slacks now."""
    found = misses.misses_of("\n".join(notes) + "\n")
    names = list(dict.fromkeys(miss.actor for miss in found))
    slacks = {name: graph.actor(name).get("slack") for name in names}
    if any(miss.deadline != miss.time + int(slacks[miss.actor].value) or miss.late <= 0 for miss in found):
        return None
    now = margins(graph, names)
    # By a clock of its platform's own an actor misses what its margin allows.
    short = {name: max(-now.get(name, 0), *(miss.late for miss in found if miss.actor == name)) for name in names}
    enough = {name: int(slack.value) + short[name] for name, slack in slacks.items()}
    then = margins(graph, names, *((slack.start, slack.end, str(enough[name])) for name, slack in slacks.items()))
    spots = [graph.spot(slack, f"too small by {short[name]}: {count(sum(miss.actor == name for miss in found), 'event')} of `{name}` acted on too late")
             for name, slack in slacks.items()]
    helps = [f"a slack of {enough[name]} gives `{name}` the margin {then[name]}; as much delay before it, or lower bounds, help too"
             if now.get(name, 0) < 0 else f"by the paced clock `{name}` misses nothing; the clock of this run makes its platform look too seldom"
             for name in names][:8]
    helps += [misses.summary(found)] if len(found) >= misses.MANY else []
    helps.append("the table is written in full, and it is right; `ptides timing` shows what sets each offset")
    return Finding(spots[0], "a margin of 0 or more for each actuator, by `ptides check`", helps, spots[1:9])


def late_message(graph: Graph, line: str, words: list[str]) -> Optional[Finding]:
    """A message that is late by a clock of its platform's own: what its bound is made of, and what makes up for it."""
    receiver, time, reading, limit = re.fullmatch(r"late (\w+) at (\d+\.\d+), reading (\d+) past (\d+)", line).groups()
    link, sender = next((node, start) for node, (start, end) in zip(graph.links, graph.linked) if end == receiver)
    far, here = (graph.place(each).text() for each in (sender, receiver))
    slack, delay, error = graph.actor(sender).get("slack"), link.get("delay"), graph.error((far, here))
    bound, short = sum(int(each.value) for each in (slack, delay, error)), int(reading) - int(limit)
    if int(limit) != int(time.split(".")[0]) + bound or short <= 0:
        return None
    more = str(int(delay.value) + short)
    helps = [f"the bound of `{receiver}` is {bound}: the slack of `{sender}`, the delay of the link and the clock error", *better_clock(graph, words),
             f"a delay of {more} for this link takes this message: `check` then {checked(graph, (delay.start, delay.end, more))}"]
    notes = [graph.spot(each, what) for each, what in ((slack, f"the slack of `{sender}`"), (delay, "the delay of the link"),
                                                       (error, f"the clock error of `{far}` and `{here}`"))]
    label = f"`{here}` had read {reading} when this message came, {short} past its bound"
    return Finding(graph.spot(graph.actor(receiver).get("name"), label), f"a message of {time} that comes as long as `{here}` has read at most {limit}", helps, notes)


def better_clock(graph: Graph, words: list[str]) -> list[str]:
    """What to change in the clock of a run in which a message was late."""
    found, paced = re.search(r"--clock[ =](?:(machine)|step:(\d+):(\d+))", " ".join(words)), "by the paced clock no message is late"
    if not found:
        return [f"the clock of `--clock` makes platforms look too seldom; {paced}"]
    if found[1]:
        return [f"by the machine's clock platforms are visited as often as the machine can: is it busy, or do firings take long? And {paced}"]
    # No run of more than some 100,000 visits of each platform.
    step, least = int(found[3]), graph.root.number("until") // 10**5
    if step <= least:
        return [f"a smaller STEP makes platforms look more often; {paced}"]
    while step > least:
        for clock in dict.fromkeys(f"step:{start}:{step}" for start in (found[2], "0")):
            status = program.run(["run", "/dev/stdin", "--clock", clock, *graph.blocks], given=graph.source.text, keep_output=False).status
            if status in (0, 5):
                return [f"with `--clock {clock}` no message is late: `run` then answers {status}"]
        step //= 2
    return [f"no STEP from this one down to {least + 1} was found to be small enough: a sender needs slack for the visits before it sends; {paced}"]


def long(graph: Graph, subject: str, words: list[str]) -> Finding:
    """A run with too many firings: the horizon that fits, the claims that it needs, and the clocks that make many of them."""
    claims = limits.claims_in(words)
    place = next((each for each in graph.parts["platform"] if each.text() == subject), graph.root.get("until"))
    clocks = [each for each in graph.names if graph.kind(each) == "every" and subject in ("meaning", graph.place(each).text())]
    notes = [graph.spot(graph.actor(each).get("period"), f"`{each}` fires once in each period, up to `until`") for each in clocks[:4]]
    label = f"more than {claims:,} firings {'for each' if subject == 'meaning' else 'on this'} platform"
    helps = horizon.advice(json.loads(graph.source.text), claims, graph.blocks)
    return graph.found(place, label, f"at most {claims:,} firings a platform", *helps, notes=notes)
