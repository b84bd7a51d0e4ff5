"""Rows of cells in columns, for a reader at a terminal."""
from __future__ import annotations

from collections.abc import Sequence

import command

GAP = '  '


def width(cell: str) -> int:
    """How wide a cell is, without what colours it."""
    return len(command.PAINTED.sub('', cell))


def columns(rows: Sequence[Sequence[str]]) -> list[str]:
    """A line for each row, each column as wide as its widest cell; the last one as wide as it is."""
    widths: list[int] = []
    for row in rows:
        widths += [0] * (len(row) - len(widths))
        for at, cell in enumerate(row[:-1]):
            widths[at] = max(widths[at], width(cell))
    return [GAP.join([*(cell + ' ' * (widths[at] - width(cell)) for at, cell in enumerate(row[:-1])), *row[-1:]]).rstrip() for row in rows]
