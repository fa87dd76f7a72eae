"""Cells and tables of the documents, for what makes the tables of docs/PERFORMANCE.md."""
from figures import UNKNOWN

LENGTHS = (64, 256, 1500)
BUILDS = ("default", "avx2")


def whole(figure):
    return UNKNOWN if figure is None else f"{figure:,.0f}"


def places(count):
    return lambda figure: UNKNOWN if figure is None else f"{figure:,.{count}f}"


hundredths, tenths = places(2), places(1)


def by(figure, divisor):
    return None if figure is None else figure / divisor


def cell(figures, form=whole):
    """Figures in one cell, or `?` if none is known."""
    cells = [form(figure) for figure in figures]
    return UNKNOWN if all(each == UNKNOWN for each in cells) else " / ".join(cells)


def table(head, rows):
    line = lambda row: "| " + " | ".join(row) + " |"
    return [line(head), "|" + "---|" * len(head), *map(line, rows)]
