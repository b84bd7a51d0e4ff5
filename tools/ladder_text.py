"""A ladder as text: an arrow a line, `X` where it was dropped, `/` where it was lost.

There are three forms: wide, with what travels on the arrows; close, with all that is said beside them; and narrow, without columns.
"""
import textwrap
from collections.abc import Iterator

import command
from ladder import Ladder, Row

TIME_WIDTH = 12
GAP = 4  # of dashes beside a label
NARROW = 80  # columns of the narrow form
SHORT = 6  # of an arrow in it
CLOSE = 6  # between two columns of the close form, at least
SAID_MIN = 26  # columns of what is said beside it, at least


class Canvas:
    """The lines of a ladder, with a column each so many characters."""

    def __init__(self, ladder: Ladder, has_ends: bool = False, is_close: bool = False) -> None:
        self.nodes, self.has_ends, self.is_close = ladder.nodes, has_ends, is_close
        names = [len(name) for name in ladder.nodes]
        ports = [sum(map(len, row.ends)) for row in ladder.rows if has_ends]
        longest = max([len(row.label) for row in ladder.rows] + names + [0])
        self.step = max([CLOSE, *(length + 1 for length in names)]) if is_close else longest + GAP + 2 + max(ports, default=0)
        self.width = self.step * (len(self.nodes) - 1) + 1

    def at(self, name: str) -> int:
        return self.nodes.index(name) * self.step

    def head(self) -> str:
        cells = [' '] * (self.width + 16)
        for name in self.nodes:
            start = max(0, self.at(name) - len(name) // 2)
            cells[start:start + len(name)] = name
        return ' ' * TIME_WIDTH + ''.join(cells).rstrip()

    def bars(self) -> str:
        cells = [' '] * (self.width + self.step)
        for name in self.nodes:
            cells[self.at(name)] = '|'
        return ''.join(cells)

    def line(self, row: Row) -> str:
        cells = list(self.bars())
        if row.is_arrow:
            self.arrow(cells, row)
        else:
            cells[self.at(row.source)] = '*'
        return ''.join(cells)

    def arrow(self, cells: list[str], row: Row) -> None:
        start = self.at(row.source)
        end = self.at(row.target) if row.target else start + self.step
        sign = 1 if end >= start else -1
        if row.is_lost:
            end = start + sign * (self.step - 1)
        low, high = min(start, end), max(start, end)
        cells[low + 1:high] = '-' * (high - low - 1)
        shift = self.put_ends(cells, row, low, high, sign) if self.has_ends and start != end else (0, 0)
        if not self.is_close:
            self.put_label(cells, row.label, low + shift[0], high - shift[1])
        if row.is_lost and not row.is_dropped:
            cells[end - sign] = '/'
        elif start != end:
            cells[end - sign] = '>' if sign > 0 else '<'
        if row.is_dropped:
            cells[end] = 'X'

    @staticmethod
    def put_ends(cells: list[str], row: Row, low: int, high: int, sign: int) -> tuple[int, int]:
        """The ports, that of the sender where the arrow begins; how much room they take at the left and at the right."""
        left, right = row.ends[::sign]
        left_at, right_at = low + 1 + (sign < 0), high - (sign > 0) - len(right)
        cells[left_at:left_at + len(left)] = left
        cells[right_at:right_at + len(right)] = right
        return len(left), len(right)

    @staticmethod
    def put_label(cells: list[str], label: str, low: int, high: int) -> None:
        room = high - low - 4
        if room > 0:
            start = low + 2 + max(0, (room - len(label[:room])) // 2)
            cells[start:start + len(label[:room])] = label[:room]


def text_of(ladder: Ladder, has_ends: bool = False) -> list[str]:
    """The lines of a ladder, with ports at the arrows' ends or without."""
    canvas = Canvas(ladder, has_ends)
    pictures = [canvas.line(row) for row in ladder.rows]
    width = max([len(picture.rstrip()) for picture in pictures] + [0])
    return [canvas.head()] + [command.red(f'{time}{picture[:width].ljust(width)}   {row.text}'.rstrip(), row.is_red)
                              for time, row, picture in zip(times(ladder), ladder.rows, pictures)]


def times(ladder: Ladder) -> Iterator[str]:
    """What stands before each row: its moment, where the row before has another one."""
    moment = None
    for row in ladder.rows:
        time = f'{row.moment:,} ms' if row.moment != moment else ''
        moment = row.moment
        yield f'{time:>{TIME_WIDTH - 2}}  '


def said_of(row: Row) -> str:
    """What travels, and what came of it."""
    return f'{row.label}: {row.fate}' if row.label else row.fate


def close_of(ladder: Ladder, width: int) -> list[str]:
    """The lines of a ladder whose columns stand close, with all that is said beside them; none where that has no room."""
    canvas = Canvas(ladder, is_close=True)
    bars, front = canvas.bars().rstrip(), TIME_WIDTH + canvas.width + canvas.step // 2
    if width - front - 2 < SAID_MIN:
        return []
    lines = [canvas.head()]
    for time, row in zip(times(ladder), ladder.rows):
        first, *rest = textwrap.wrap(said_of(row), width - front - 2) or ['']
        picture = canvas.line(row)[:front - TIME_WIDTH].ljust(front - TIME_WIDTH)
        made = [f'{time}{picture}  {first}'] + [f'{"":{TIME_WIDTH}}{bars:<{front - TIME_WIDTH}}  {more}' for more in rest]
        lines += [command.red(line.rstrip(), row.is_red) for line in made]
    return lines


def fitting_of(ladder: Ladder, has_ends: bool, width: int) -> list[str]:
    """The lines of the widest form that fits into a terminal."""
    wide = text_of(ladder, has_ends)
    if max(map(len, wide)) <= width:
        return wide
    return not has_ends and close_of(ladder, width) or narrow_of(ladder, has_ends, width)


def short_arrow(row: Row) -> str:
    """An arrow of few characters, as the wide form has it."""
    end = 'X' if row.is_dropped else '/' if row.is_lost else '>'
    return '-' * (SHORT - 1) + end if row.is_arrow else ' ' * SHORT


def narrow_of(ladder: Ladder, has_ends: bool = False, width: int = NARROW) -> list[str]:
    """The lines of a ladder that fits into so many columns: who, an arrow, to whom, and behind it what travels and what came of it."""
    sides = [[with_port(name, end if has_ends else '') for name, end in zip((row.source, row.target or ''), row.ends)] for row in ladder.rows]
    left, right = (max([len(side[at]) for side in sides], default=0) for at in (0, 1))
    lines = []
    for time, row, (source, target) in zip(times(ladder), ladder.rows, sides):
        made = wrapped(f'{time}{source:>{left}} {short_arrow(row)} {target:<{right}}  ', said_of(row), width)
        lines += [command.red(line, row.is_red) for line in made]
    return lines


def with_port(name: str, port: str) -> str:
    return name + ' ' * port.startswith('Q') + port


def wrapped(front: str, said: str, width: int) -> list[str]:
    """A text behind its front, and below it where it is too long for that."""
    if len(front) > width // 2 and len(front) + len(said) > width:
        short = [front.rstrip()] if len(front.rstrip()) <= width else textwrap.wrap(front, width, subsequent_indent='  ')
        return short + textwrap.wrap(said, width, initial_indent=' ' * TIME_WIDTH, subsequent_indent=' ' * TIME_WIDTH)
    return [line.rstrip() for line in textwrap.wrap(said, width, initial_indent=front, subsequent_indent=' ' * len(front)) or [front]]
