"""Printed pages for the checks: their text, and how much is drawn of each trend."""
from __future__ import annotations

import re
import subprocess
from pathlib import Path
from typing import Iterator

# A point of paper is 1/72 of an inch; a page is looked at with this many pixels for each inch.
SHARPNESS = 100
# Below its title a trend is this many points high, without the numbers of its time axis.
TREND = 66
# The numbers of a trend's other axis end this many points from the left.
LEFT = 110
# What is drawn is darker than this; frames, grids and axes are lighter.
DARK = 130


def text(file: Path) -> str:
    """The text of all pages."""
    return subprocess.run(["pdftotext", "-layout", file, "-"], capture_output=True, text=True, check=True).stdout


def titles(file: Path) -> Iterator[tuple[int, float, str]]:
    """The page, the lower edge and the title of each trend."""
    pages = subprocess.run(["pdftotext", "-bbox-layout", file, "-"], capture_output=True, text=True, check=True).stdout.split("<page ")[1:]
    for number, page in enumerate(pages):
        for bottom, line in re.findall(r'<line [^>]*yMax="([\d.]+)">(.*?)</line>', page, re.DOTALL):
            words = " ".join(re.findall(">([^<]+)</word>", line))
            if re.search(r", on \w+$|, no events$|us until the deadline$|by its clock$|us on the way to", words):
                yield number, float(bottom), words


def dark_lines(picture: bytes, left: int) -> list[int]:
    """How many dark pixels each line of a picture has, from a place on."""
    _, size, _, data = picture.split(b"\n", 3)
    width, height = map(int, size.split())
    dark = bytes(shade < DARK for shade in range(256))
    return [data[line * width + left:(line + 1) * width].translate(dark).count(1) for line in range(height)]


def trends(file: Path) -> list[tuple[str, int]]:
    """The title of each trend, and how many dark pixels are drawn below it, right of the numbers of its axis."""
    pages: dict[int, list[int]] = {}
    found = []
    for number, bottom, title in titles(file):
        if number not in pages:
            words = ["pdftoppm", "-gray", "-r", str(SHARPNESS), "-f", str(number + 1), "-l", str(number + 1), file]
            pages[number] = dark_lines(subprocess.run(words, capture_output=True, check=True).stdout, LEFT * SHARPNESS // 72)
        first, last = (round(place * SHARPNESS / 72) for place in (bottom + 2, bottom + TREND))
        found.append((title, sum(pages[number][first:last])))
    return found
