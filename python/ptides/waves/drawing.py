"""What pictures of runs are drawn with: the scale of times, the signs, and labels that don't overlap."""
from __future__ import annotations

import math
from typing import Iterator, Optional

WIDTH, RIGHT, HEIGHT, TOP = 1150, 40, 24, 34
# The width of signs of both sizes of text, rounded up.
SIGN, SMALL_SIGN = 6.4, 5.4
STYLE = """
text{font:11px Helvetica,Arial,sans-serif;fill:#0f172a} .small{font-size:9px;fill:#64748b} .platform{font-weight:bold}
.frame{fill:#f8fafc;stroke:#cbd5e1} .grid{stroke:#e2e8f0} .seen{stroke:#2563eb;stroke-width:2} .deadline{fill:none;stroke:#d97706;stroke-width:1.5}
.message{stroke:#7c3aed;stroke-dasharray:4 3} .messages{stroke:#7c3aed;opacity:.5} .wait{stroke:#94a3b8;stroke-width:3;opacity:.5} .event{fill:#fff;stroke:#0f172a}
.acted{fill:#0f172a} .early .acted{fill:#16a34a} .early .wait{stroke:#16a34a} .miss{fill:none;stroke:#dc2626;stroke-width:2} .late .wait{stroke:#dc2626}
.band{fill:none;stroke:#0f766e}
"""


class Scale:
    """Where a time is on the picture."""

    def __init__(self, first: int, last: int, left: float):
        self.first, self.last, self.left = first, max(last, first + 1), left

    def shows(self, *times: Optional[int]) -> bool:
        """Whether all these times are known and in the picture."""
        return all(time is not None and self.first <= time <= self.last for time in times)

    def place(self, time: int) -> float:
        """The points from the left."""
        time = min(max(time, self.first), self.last)
        return self.left + (time - self.first) / (self.last - self.first) * (WIDTH - self.left - RIGHT)

    def x(self, time: int) -> str:
        """The same as text."""
        return f"{self.place(time):.1f}"

    def ticks(self) -> Iterator[int]:
        """Some eight round times."""
        rough = max((self.last - self.first) / 8, 1)
        power = 10 ** int(math.log10(rough))
        step = next(power * factor for factor in (1, 2, 5, 10) if power * factor >= rough)
        yield from range(-(-self.first // step) * step, self.last + 1, step)


def line(kind: str, x1: str, y1: float, x2: str, y2: float) -> str:
    """A line from one place to another."""
    return f'<line class="{kind}" x1="{x1}" y1="{y1:.1f}" x2="{x2}" y2="{y2:.1f}"/>'


def deadline(x: float, y: float) -> str:
    """A deadline: a bracket that closes."""
    return f'<path class="deadline" d="M{x - 4:.1f} {y - 8:.1f}h4v16h-4"/>'


def miss(x: float, y: float) -> str:
    """A miss: a cross."""
    return f'<path class="miss" d="M{x - 4:.1f} {y - 4:.1f}l8 8m0 -8l-8 8"/>'


class Labels:
    """Leaves out a label that would cover the one before it on its line."""

    def __init__(self) -> None:
        self.end = -math.inf

    def place(self, x: float, y: float, text: str) -> str:
        """The label, or nothing."""
        if x < self.end:
            return ""
        self.end = x + 6 + SMALL_SIGN * len(text)
        return f'<text x="{x:.1f}" y="{y:.1f}" class="small" dx="4">{text}</text>'
