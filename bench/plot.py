#!/usr/bin/env python3
"""Draws the time that a packet takes by its length, for five kinds of jobs beside intel-ipsec-mb, as an SVG.

    bench/plot.py FOLDER [FILE]    by default into docs/packet-times.svg

FOLDER is what bench/sitting filled: its file `plot` is drawn, which bench-avx2 printed. Both axes are logarithmic. It needs python3 alone.
"""
import math
import pathlib
import sys

TOP = pathlib.Path(__file__).resolve().parent.parent

KINDS = [("hmac-sha256", "HMAC-SHA-256"), ("cbc", "CBC encryption"), ("ctr", "CTR"), ("gcm", "GCM"), ("ccm", "CCM")]
# The other library's manager, as bench names it.
OTHER = "avx2"
STYLES = {"here": ("this library", "#0072b2", ""), OTHER: ("intel-ipsec-mb", "#d55e00", ' stroke-dasharray="5 3"')}

WIDTH, HEIGHT = 920, 320
LEFT, RIGHT, UPPER, LOWER, GAP = 66, 16, 70, 48, 24
PANEL = (WIDTH - LEFT - RIGHT - GAP * (len(KINDS) - 1)) / len(KINDS)
TICKS = (64, 256, 1500)


def read(text):
    """The points of each kind and library: bytes, and nanoseconds a job."""
    rows = [line.split() for line in text.splitlines() if line.strip()]
    if not rows or rows[0][:3] != ["jobs", "bytes", "ns"]:
        sys.exit("plot.py: this isn't what bench prints")
    names = ["here", *rows[0][4::4]]
    if OTHER not in names:
        sys.exit(f"plot.py: bench had no manager {OTHER} of intel-ipsec-mb beside it")
    points = {}
    for jobs, length, *figures in rows[1:]:
        times = [figures[0], *figures[2::3]]
        for name, ns in zip(names, times):
            points.setdefault((jobs, name), []).append((float(length), float(ns)))
    return {key: sorted(series) for key, series in points.items()}


def scale(least, most, begin, end):
    """Where a figure stands on a logarithmic axis."""
    return lambda figure: begin + (end - begin) * math.log(figure / least) / math.log(most / least)


def text(x, y, words, anchor="middle", size=12, colour="#333333", more=""):
    return f'<text x="{x:.1f}" y="{y:.1f}" text-anchor="{anchor}" font-size="{size}" fill="{colour}"{more}>{words}</text>'


def line(x1, y1, x2, y2, colour="#dddddd"):
    return f'<line x1="{x1:.1f}" y1="{y1:.1f}" x2="{x2:.1f}" y2="{y2:.1f}" stroke="{colour}" stroke-width="1"/>'


def mark(x, y, name):
    colour = STYLES[name][1]
    if name == "here":
        return f'<circle cx="{x:.1f}" cy="{y:.1f}" r="3.2" fill="{colour}"/>'
    return f'<rect x="{x - 2.9:.1f}" y="{y - 2.9:.1f}" width="5.8" height="5.8" fill="{colour}"/>'


def curve(points, name, x, y):
    _, colour, dashes = STYLES[name]
    path = " ".join(f"{x(length):.1f},{y(ns):.1f}" for length, ns in points)
    marks = [mark(x(length), y(ns), name) for length, ns in points]
    return [f'<polyline points="{path}" fill="none" stroke="{colour}" stroke-width="2"{dashes}/>', *marks]


def decades(least, most):
    return [10**power for power in range(round(math.log10(least)), round(math.log10(most)) + 1)]


def panel(points, kind, title, left, y, bounds):
    """One kind of jobs: its grid, its title and its two curves."""
    x = scale(56, 1720, left, left + PANEL)
    upper, lower = y(bounds[1]), y(bounds[0])
    parts = [line(left, y(ns), left + PANEL, y(ns)) for ns in decades(*bounds)]
    parts += [line(x(length), upper, x(length), lower) for length in TICKS]
    parts += [text(x(length), lower + 16, f"{length:,}", size=11) for length in TICKS]
    parts.append(text(left + PANEL / 2, upper - 10, title, size=13, more=' font-weight="bold"'))
    for name in STYLES:
        parts += curve(points.get((kind, name), []), name, x, y)
    return parts


def legend():
    parts, at = [], LEFT
    for name, (words, colour, dashes) in STYLES.items():
        parts.append(f'<line x1="{at}" y1="22" x2="{at + 34}" y2="22" stroke="{colour}" stroke-width="2"{dashes}/>')
        parts.append(mark(at + 17, 22, name))
        parts.append(text(at + 42, 26, f"{words}, AVX2, one core", anchor="start"))
        at += 230
    return parts


def draw(points):
    known = [ns for (kind, name), series in points.items() if kind in dict(KINDS) and name in STYLES for _, ns in series]
    if not known:
        sys.exit("plot.py: none of the five kinds of jobs is there")
    bounds = (10 ** math.floor(math.log10(min(known))), 10 ** math.ceil(math.log10(max(known))))
    y = scale(*bounds, HEIGHT - LOWER, UPPER)
    parts = legend()
    parts += [text(LEFT - 8, y(ns) + 4, f"{ns:,}", anchor="end", size=11) for ns in decades(*bounds)]
    parts.append(text(16, (UPPER + HEIGHT - LOWER) / 2, "ns a packet", more=f' transform="rotate(-90 16 {(UPPER + HEIGHT - LOWER) / 2:.1f})"'))
    parts.append(text(LEFT + (WIDTH - LEFT - RIGHT) / 2, HEIGHT - 8, "bytes of a packet"))
    for i, (kind, title) in enumerate(KINDS):
        parts += panel(points, kind, title, LEFT + i * (PANEL + GAP), y, bounds)
    head = f'<svg xmlns="http://www.w3.org/2000/svg" viewBox="0 0 {WIDTH} {HEIGHT}" width="{WIDTH}" height="{HEIGHT}" font-family="sans-serif">'
    name = "<title>Nanoseconds a packet by its length, this library beside intel-ipsec-mb, both with AVX2 on one core</title>"
    return "\n".join([head, name, f'<rect width="{WIDTH}" height="{HEIGHT}" fill="#ffffff"/>', *parts, "</svg>", ""])


def main(words):
    if len(words) not in (1, 2) or words[0].startswith("--"):
        sys.exit(__doc__)
    source = pathlib.Path(words[0]) / "plot"
    if not source.exists():
        sys.exit(f"plot.py: no file {source}")
    target = pathlib.Path(words[1]) if len(words) == 2 else TOP / "docs/packet-times.svg"
    target.write_text(draw(read(source.read_text())))


main(sys.argv[1:])
