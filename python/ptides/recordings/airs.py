"""Air files: how long the messages of a network were on their way, from the logs at its two ends."""
from __future__ import annotations

from typing import NamedTuple

from ptides import limits
from ptides.program import Fault
from ptides.recordings.candump import Frame, frames_of, no_frame
from ptides.recordings.samples import MOST_TIME, Asked, lines_of


class Transit(NamedTuple):
    """A message that was sent and received: its sender, the two frames, and how long it took."""

    sender: str
    sent: Frame
    received: Frame
    time: int


def lag_of(asked: Asked, option: str) -> int:
    """How far the clock of a log is behind."""
    stated = getattr(asked, option)
    return stated[1] if stated else 0


def wanted_frames(asked: Asked, path: str) -> dict[str, list[Frame]]:
    """The frames of a log for each identifier that is a sender's, in their order; remote requests are no messages."""
    found: dict[str, list[Frame]] = {identifier: [] for identifier in asked.senders}
    others = set()
    for frame in frames_of(path):
        others.add(frame.identifier)
        if frame.identifier in found and asked.bus in (None, frame.bus) and not frame.data.startswith("R"):
            found[frame.identifier].append(frame)
    for identifier, frames in found.items():
        if not frames:
            raise no_frame(path, identifier, others)
    return found


def transit_of(asked: Asked, number: int, sent: Frame, received: Frame) -> Transit:
    """The time from one frame to the other, in whole microseconds, of which a begun one counts."""
    where = f"{asked.received}:{received.line}: frame {number} of {sent.identifier}"
    if sent.data != received.data and not asked.other_data:
        raise Fault(f"{where} has the data {received.data or 'none'}, and {sent.data or 'none'} was sent ({asked.sent}:{sent.line}): "
                    "is a frame missing in one of the logs?")
    lags = lag_of(asked, "received_lag") - lag_of(asked, "sent_lag")
    nanoseconds = received.stamp - sent.stamp + 1000 * lags
    if nanoseconds < 0:
        raise Fault(f"{where} was received {-nanoseconds / 1000:.10g} us before it was sent ({asked.sent}:{sent.line}): "
                    "state the lags of the two clocks with --sent-lag and --received-lag")
    time = -(-nanoseconds // 1000)
    if time > MOST_TIME:
        raise Fault(f"{where} took {time} us: too long")
    return Transit(asked.senders[sent.identifier], sent, received, time)


def transits_of(asked: Asked) -> list[Transit]:
    """All messages in the order in which they were sent: the k-th frame that was sent is the k-th that was received."""
    sent, received = wanted_frames(asked, asked.sent), wanted_frames(asked, asked.received)
    found = []
    for identifier in asked.senders:
        pairs = list(zip(sent[identifier], received[identifier]))
        found += [transit_of(asked, number, *pair) for number, pair in enumerate(pairs, 1)]
        for path, frames in ((asked.sent, sent[identifier]), (asked.received, received[identifier])):
            if len(frames) > len(pairs):
                raise Fault(f"{path}:{frames[len(pairs)].line}: frame {len(pairs) + 1} of {identifier} is in this log alone: "
                            "cut both logs so that they have the same frames")
    return sorted(found, key=lambda transit: (transit.sent.stamp, transit.sent.line))


def air_rows(asked: Asked, transits: list[Transit]) -> list[str]:
    """The rows of the air file."""
    lags = [stated for stated in (asked.sent_lag, asked.received_lag) if stated]
    if len(lags) == 2 and lags[0][0] == lags[1][0]:
        raise Fault(f"--sent-lag and --received-lag both name {lags[0][0]}")
    rows = [f"lag,{platform},{lag}" for platform, lag in lags] + [f"transit,{transit.sender},{transit.time}" for transit in transits]
    most = limits.rows_limit(asked.claims)
    if len(rows) > most:
        raise Fault(f"{asked.sent}: {len(rows)} rows, and an air file has at most {most}; cut the logs, or allow them: {limits.option_for(limits.claims_for(len(rows)))}")
    return rows


def air_report(asked: Asked, transits: list[Transit]) -> str:
    """What the messages of each sender took, and the delay and clock error that the recording needs."""
    lines = []
    for identifier, sender in asked.senders.items():
        mine = [transit for transit in transits if transit.sender == sender]
        times, last = sorted(transit.time for transit in mine), max(mine, key=lambda transit: transit.time)
        lines.append(f"{sender}: {len(mine)} messages ({identifier}), transit: least {times[0]}, median {times[len(times) // 2]}, greatest {times[-1]} "
                     f"({asked.sent}:{last.sent.line} to {asked.received}:{last.received.line})")
    lines += [f"this recording needs a delay of {max(transit.time for transit in transits if transit.sender == sender)} for the link of {sender}"
              for sender in asked.senders.values()]
    if asked.sent_lag or asked.received_lag:
        lines.append(f"and a clock error of {abs(lag_of(asked, 'received_lag') - lag_of(asked, 'sent_lag'))} for the two platforms")
    return "\n".join(lines) + "\n"


def air_row(asked: Asked, transits: list[Transit], rows: list[str]) -> str:
    """The two lines of the logs from which a row is."""
    if not 1 <= asked.row <= len(rows):
        raise Fault(f"there is no row {asked.row}: the rows are 1 to {len(rows)}")
    text, before = f"row {asked.row}: {rows[asked.row - 1]}\n", len(rows) - len(transits)
    if asked.row <= before:
        return text
    transit = transits[asked.row - 1 - before]
    for path, frame in ((asked.sent, transit.sent), (asked.received, transit.received)):
        found = next(line for number, line in lines_of(path) if number == frame.line)
        text += f"{path}:{frame.line}: {found.rstrip()}\n"
    return text


def make_air(asked: Asked) -> tuple[str, str]:
    """The air file and the report; or the lines that a row is from."""
    asked.senders = {}
    for identifier, sender in asked.sender:
        if identifier in asked.senders or sender in asked.senders.values():
            raise Fault(f"--sender names {identifier if identifier in asked.senders else sender} twice")
        asked.senders[identifier] = sender
    transits = transits_of(asked)
    rows = air_rows(asked, transits)
    if asked.row is not None:
        return air_row(asked, transits, rows), ""
    return "".join(line + "\n" for line in ["what,name,value", *rows]), air_report(asked, transits)
