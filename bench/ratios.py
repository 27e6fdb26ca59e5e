#!/usr/bin/env python3
"""Draws bench/ratios.svg: time and memory of mrun beside the plain Rust program with versions, a bar for each workload.

bench/ratios.py        draws it anew from the first table of bench/RESULTS.md, each workload at its largest size
"""
import os
import re
from html import escape

HERE = os.path.dirname(os.path.abspath(__file__))
PLOT = os.path.join(HERE, "ratios.svg")
ROW, LEFT, UNIT, TOP, MOST = 20, 440, 190, 70, 2.0
QUICKER, SLOWER, MEMORY, GREY = "#2e7d32", "#c0792b", "#2980b9", "#555"
LONG_NAME = "locks: names held by jobs with 100 each, tries, takings"


class Bar:
    """A workload at one size, with the ratios of its time and of its memory."""

    def __init__(self, name, size, time, memory):
        self.name, self.size, self.time, self.memory = name, size, time, memory

    def label(self):
        return f"{escape(self.name.replace(LONG_NAME, 'locks: names taken and tried'))}, {self.size:,}"


def bars_of(text):
    """The last row of each workload in a table of `bench/run`."""
    bars = {}
    for line in text.split("## Beside plain Rust", 1)[1].split("\n"):
        cells = [cell.strip() for cell in line.strip("|").split("|")]
        if len(cells) == 12 and re.fullmatch(r"[\d,]+", cells[1]):
            bars[cells[0]] = Bar(cells[0], int(cells[1].replace(",", "")), float(cells[6]), float(cells[11]))
    return list(bars.values())


def across(ratio):
    return LEFT + min(ratio, MOST) * UNIT


def row_of(bar, top):
    """A label, a bar of time with its figure, and a mark of memory, with its figure where it is off the scale."""
    end, mark = across(bar.time), across(bar.memory)
    yield f'<text x="{LEFT - 8}" y="{top + 12}" text-anchor="end">{bar.label()}</text>'
    colour = QUICKER if bar.time <= 1 else SLOWER
    yield f'<rect x="{LEFT}" y="{top + 2}" width="{end - LEFT:.0f}" height="13" fill="{colour}"/>'
    yield f'<text x="{LEFT + 6}" y="{top + 12}" font-size="10" fill="white">{bar.time:.2f}</text>'
    yield f'<line x1="{mark:.0f}" x2="{mark:.0f}" y1="{top}" y2="{top + 17}" stroke="{MEMORY}" stroke-width="3"/>'
    if bar.memory > MOST:
        yield f'<text x="{mark + 6:.0f}" y="{top + 12}" font-size="10" fill="{MEMORY}">{bar.memory:.2f}</text>'


def lines_of(bars):
    """The picture: rows by time, a line at 1, and a scale."""
    width, height = LEFT + int(MOST * UNIT) + 60, TOP + ROW * len(bars) + 30
    yield f'<svg xmlns="http://www.w3.org/2000/svg" width="{width}" height="{height}" font-family="sans-serif" font-size="12">'
    yield f'<rect width="{width}" height="{height}" fill="white"/>'
    yield '<text x="10" y="20" font-size="14" font-weight="bold">mrun beside the same engine in plain Rust, without journal and proof</text>'
    yield f'<text x="10" y="38" fill="{GREY}">bar: time, where 1 is as long and less is quicker; blue mark: memory, with the journal</text>'
    for place, bar in enumerate(sorted(bars, key=lambda bar: bar.time)):
        yield from row_of(bar, TOP + place * ROW)
    yield f'<line x1="{across(1):.0f}" x2="{across(1):.0f}" y1="{TOP - 8}" y2="{height - 22}" stroke="#333" stroke-dasharray="4 3"/>'
    for ratio in (0, 0.5, 1, 1.5, 2):
        yield f'<text x="{across(ratio):.0f}" y="{height - 8}" text-anchor="middle" font-size="10">{ratio:g}</text>'
    yield "</svg>"


def draw(path, bars):
    with open(path, "w", encoding="utf8") as file:
        file.write("\n".join(lines_of(bars)) + "\n")


if __name__ == "__main__":
    with open(os.path.join(HERE, "RESULTS.md"), encoding="utf8") as results:
        draw(PLOT, bars_of(results.read()))
