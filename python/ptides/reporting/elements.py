"""Elements of HTML: tables, parts of a page."""
from __future__ import annotations

from html import escape
from typing import Any, Iterable, Optional


def tag(name: str, content: str, **attributes: Any) -> str:
    """An element; its content is HTML."""
    words = "".join(f' {key.rstrip("_").replace("_", "-")}="{escape(str(value))}"' for key, value in attributes.items())
    return f"<{name}{words}>{content}</{name}>"


def table(head: Iterable[str], records: Iterable[Iterable[Any]], numbers: Iterable[int] = (), body: str = "") -> str:
    """A table; the columns of `numbers` are set to the right. A cell that begins with `<` is HTML."""
    right = set(numbers)

    def row(record: Iterable[Any], kind: str) -> str:
        """A line of cells of this kind."""
        cells = []
        for index, cell in enumerate(record):
            text = "" if cell is None else str(cell) if str(cell).startswith("<") else escape(f"{cell:,}" if isinstance(cell, int) else str(cell))
            cells.append(f'<{kind} class="number">{text}</{kind}>' if index in right else f"<{kind}>{text}</{kind}>")
        return "<tr>" + "".join(cells) + "</tr>"

    rows = "".join(row(record, "td") for record in records)
    return f'<div class="wide"><table{body}><thead>{row(head, "th")}</thead><tbody>{rows}</tbody></table></div>'


def marked(number: Optional[int], is_bad: object) -> object:
    """A number, in red if it is bad."""
    return f'<span class="failed">{number:,}</span>' if is_bad else number


def section(name: str, title: str, content: str) -> str:
    """A part of the page."""
    return tag("section", f"<h2>{escape(title)}</h2>{content}", id=name)
