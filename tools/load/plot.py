#!/usr/bin/env python3
"""Draws lines a second against clients, from the table of docs/PERFORMANCE.md.

    tools/load/plot.py            writes docs/lines-a-second.svg
    tools/load/plot.py --check    only says whether that is what it would write

The points are the rows "N clients, as fast as it goes": lines delivered in all a second, divided by the clients, which is
how many lines a second each client gets. Both scales are logarithmic.
"""

import math
import pathlib
import re
import sys

DOCS = pathlib.Path(__file__).resolve().parents[2] / "docs"
ROW = re.compile(r"\| ([\d,]+) clients, as fast as it goes \| ([\d,]+) \| ([\d,]+) \|", re.M)
LEFT, TOP, WIDTH, HEIGHT = 110, 50, 600, 330
CLIENTS, LINES = (6, 1600), (10_000, 2_000_000)
TICKS = (10_000, 20_000, 50_000, 100_000, 200_000, 500_000, 1_000_000, 2_000_000)
KINDS = (("this server", "#2f6090", 2), ("bare, which reads no packet", "#a2473a", 1))


def number(text):
    return int(text.replace(",", ""))


def share(value, span):
    """How far a value is from the first to the second of a span, from 0 to 1."""
    return (math.log(value) - math.log(span[0])) / (math.log(span[1]) - math.log(span[0]))


def x_of(clients):
    return LEFT + WIDTH * share(clients, CLIENTS)


def y_of(lines):
    return TOP + HEIGHT * (1 - share(lines, LINES))


def curve(rows, colour, at):
    points = [(x_of(row[0]), y_of(row[at] / row[0]), row[at] / row[0]) for row in rows]
    path = " ".join(f"{x:.1f},{y:.1f}" for x, y, _ in points)
    yield f'<polyline points="{path}" fill="none" stroke="{colour}" stroke-width="2"/>'
    for x, y, lines in points:
        yield f'<circle cx="{x:.1f}" cy="{y:.1f}" r="4" fill="{colour}"/>'
        yield f'<text x="{x:.1f}" y="{y + (20 if at == 2 else -10):.1f}" fill="{colour}" text-anchor="middle">{round(lines, -2):,.0f}</text>'


def drawn(rows):
    yield f'<svg xmlns="http://www.w3.org/2000/svg" viewBox="0 0 {LEFT + WIDTH + 60} {TOP + HEIGHT + 60}" font-family="sans-serif" font-size="13" role="img" aria-label="Lines a second that each client gets, against clients">'
    yield f'<rect width="{LEFT + WIDTH + 60}" height="{TOP + HEIGHT + 60}" fill="white"/>'
    for lines in TICKS:
        yield f'<path d="M{LEFT},{y_of(lines):.1f} h{WIDTH}" stroke="#ddd"/><text x="{LEFT - 10}" y="{y_of(lines) + 4:.1f}" text-anchor="end">{lines:,}</text>'
    for clients, *_ in rows:
        yield f'<path d="M{x_of(clients):.1f},{TOP} v{HEIGHT}" stroke="#ddd"/><text x="{x_of(clients):.1f}" y="{TOP + HEIGHT + 20}" text-anchor="middle">{clients:,}</text>'
    yield f'<text x="{LEFT + WIDTH / 2}" y="{TOP + HEIGHT + 45}" text-anchor="middle">clients with the full feed</text>'
    yield f'<text x="{LEFT - 90}" y="24">lines a second that each client gets, as fast as it goes</text>'
    for place, (name, colour, at) in enumerate(KINDS):
        yield from curve(rows, colour, at)
        yield f'<text x="{LEFT + 20}" y="{TOP + HEIGHT - 20 - 20 * place}" fill="{colour}">{name}</text>'
    yield "</svg>"


def main(words):
    rows = [tuple(map(number, row)) for row in ROW.findall((DOCS / "PERFORMANCE.md").read_text())]
    text = "\n".join(drawn(rows)) + "\n"
    file = DOCS / "lines-a-second.svg"
    if words == ["--check"]:
        same = file.exists() and file.read_text() == text
        print(f"{file.name} {'is' if same else 'is not'} what the table says")
        return int(not same)
    file.write_text(text)
    return 0


if __name__ == "__main__":
    sys.exit(main(sys.argv[1:]))
