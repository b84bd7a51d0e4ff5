"""A ladder as a picture in SVG: black on white, a file of its own with nothing from elsewhere and no script.

An arrow has a ring where it passes a NAT; a port stands at the NAT that has it. So long as a NAT lets somebody in, a bar stands in its
column, a bar for each whom a port lets in, and its title says whom.
"""
import windows
from command import xml
from ladder import Bar, Ladder, Row

STEP, ROW, TOP = 190, 34, 60  # pixels between columns, between rows, and above the first row
CLOSE, WIDE = 106, 860  # between columns at the least, where the picture would be wider than that
CHAR = 7.2  # pixels of a letter, at most
BOLD = 8.3  # of a bold one
BOX = 80  # the width of a box, at least
SIZE = 12
PORT = 44  # the room of a port
LEFT = 90  # for the time
HEAD = 8  # length of an arrowhead
RING = 4  # where an arrow passes a NAT
SHORT = 40  # by so much an arrow that comes nowhere ends before the next column
BELOW = 14  # from an arrow to what stands below it
LANE, WIDE_LANE = 5, 9  # the width of a bar, and of one that stands for anyone
LANES = 5  # bars side by side in a column, at most: the last place has all that are more
NAMED = 6  # windows of a bar that are named
NEWLINE = '&#10;'


class Picture:
    def __init__(self, ladder: Ladder, title: str, has_ends: bool = False) -> None:
        self.ladder, self.title, self.has_ends, self.parts = ladder, title, has_ends, list[str]()
        self.left = LEFT + self.overhang()
        room = WIDE - self.left - self.behind()
        names = max((self.width_of(name) for name in ladder.nodes), default=BOX)
        self.step = max(names + 6, min(STEP, max(CLOSE, room // max(1, len(ladder.nodes) - 1))))
        self.right = self.at(ladder.nodes[-1]) if ladder.nodes else self.left
        self.height = TOP + ROW * len(ladder.rows) + 20

    @staticmethod
    def width_of(name: str) -> float:
        return max(BOX, BOLD * len(name) + 20)

    def at(self, name: str) -> float:
        return self.left + self.step * self.ladder.nodes.index(name)

    def overhang(self) -> float:
        """The room that fates need to the left of the first column."""
        first = self.ladder.nodes[:1]
        return max([CHAR * len(row.fate.partition(' ')[0]) + 20 for row in self.ladder.rows if row.is_arrow and first == [row.target]
                    and row.source != row.target] + [40])

    def behind(self) -> float:
        """The room that is needed to the right of the last column."""
        last = self.ladder.nodes[-1:]
        return max([CHAR * len(row.fate.partition(' ')[0] if row.is_arrow else row.fate) + 30 for row in self.ladder.rows if last == [row.target or row.source]] + [BOX])

    def text(self, x: float, y: float, text: str, anchor: str = 'start', weight: str = 'normal', more: str = '') -> None:
        self.parts.append(f'<text x="{x:.0f}" y="{y:.0f}" text-anchor="{anchor}" font-weight="{weight}"{more}>{xml(text)}</text>')
        reach = x + (CHAR * len(text) if anchor == 'start' else 0)
        self.right = max(self.right, reach)

    def line(self, x1: float, y1: float, x2: float, y2: float, look: str = '') -> None:
        self.parts.append(f'<line x1="{x1:.0f}" y1="{y1:.0f}" x2="{x2:.0f}" y2="{y2:.0f}"{look}/>')

    def columns(self) -> None:
        for name in self.ladder.nodes:
            x = self.at(name)
            self.line(x, TOP - 14, x, self.height - 10, ' stroke="#767676"')
            width = self.width_of(name)
            self.right = max(self.right, x + width / 2)
            self.parts.append(f'<rect x="{x - width / 2:.0f}" y="{TOP - 40}" width="{width:.0f}" height="24" fill="#fff" stroke="#000"/>')
            self.text(x, TOP - 24, name, 'middle', 'bold')

    def bars(self) -> None:
        """The windows of each NAT side by side, each at the first place that is free."""
        places = dict[str, list[list[list[Bar]]]]()
        for bar in sorted(self.ladder.bars, key=lambda one: one.first):
            known = places.setdefault(bar.window.nat, [])
            free = next((place for place in known if place[-1][-1].end <= bar.first), None)
            if free is not None:
                free.append([bar])
            elif len(known) < LANES:
                known.append([[bar]])
            else:  # beside those that are there already
                known[-1][-1].append(bar)
                known[-1][-1].sort(key=lambda one: one.end)
        for nat, lanes in places.items():
            for number, lane in enumerate(lanes):
                for together in lane:
                    self.bar(self.at(nat), number, together)

    def bar(self, x: float, place: int, together: list[Bar]) -> None:
        """A bar, at the column's line or at a place to the right or to the left of it."""
        first, last = min(together, key=lambda one: one.first), together[-1]
        top = TOP - 14 if first.is_older else row_at(first.first)
        low = self.height - 10 if last.end == len(self.ladder.rows) else row_at(last.end) - (0 if last.window.void is not None else ROW // 2)
        wide = WIDE_LANE if not first.window.whom else LANE
        left = x - wide / 2 + (place + 1) // 2 * (wide if place % 2 else -wide)
        shuts = '' if last.end == len(self.ladder.rows) or last.window.void is not None else f' data-until="{last.window.until}"'
        said = [windows.said_of(one.window, self.ladder.known) for one in together]
        said[NAMED:] = [f'and {len(said) - NAMED} more'] if len(said) > NAMED else []
        self.parts.append(f'<rect class="lets" x="{left:.1f}" y="{top}" width="{wide}" height="{low - top}" fill="#d9d9d9" stroke="#767676"{shuts}>'
                          f'<title>{NEWLINE.join(map(xml, said))}</title></rect>')

    def row(self, row: Row, y: int) -> None:
        x = self.at(row.source)
        if not row.is_arrow:
            self.parts.append(f'<circle cx="{x:.0f}" cy="{y:.0f}" r="4" fill="#000"/>')
            self.text(x + 9, y + 4, row.fate)
        elif row.target == row.source:
            self.text(x + 9, y + 4, f'{row.label}: {row.fate}')
        else:
            self.arrow(row, x, self.at(row.target) if row.target else x + self.step, y)

    def arrow(self, row: Row, start: float, end: float, y: int) -> None:
        sign = 1 if end > start else -1
        if row.is_lost and not row.is_turned:
            end = self.end_of_lost(row, start, sign)
        dashes = ' stroke-dasharray="5 4"' if row.is_lost and not row.is_dropped and not row.is_turned else ''
        self.line(start, y, end, y, dashes + (' class="drop"' if row.is_dropped or row.is_turned else ''))
        self.rings(row, start, end, y)
        self.text((start + end) / 2 if abs(end - start) < 1.5 * self.step else start + sign * self.step / 2, y - 6, row.label, 'middle')
        if self.has_ends:
            self.ends(row, start, end, y, sign)
        if row.is_dropped or row.is_turned:
            self.cross(end, y)
        elif row.is_lost:
            self.line(end, y - 7, end, y + 7, ' stroke-width="2"')
        else:
            points = f'{end:.0f},{y} {end - sign * HEAD:.0f},{y - 4} {end - sign * HEAD:.0f},{y + 4}'
            self.parts.append(f'<polygon points="{points}" fill="#000"/>')
        self.fate(row, end, y, sign)

    def end_of_lost(self, row: Row, start: float, sign: int) -> float:
        """Where an arrow ends that comes nowhere: before the next column, or behind the last NAT that it passed."""
        passed = [self.at(nat) for nat in row.passes if nat in self.ladder.nodes and (self.at(nat) - start) * sign > 0]
        return (sign * max(sign * x for x in passed) if passed else start) + sign * (self.step - SHORT)

    def rings(self, row: Row, start: float, end: float, y: int) -> None:
        for nat in row.passes:
            if nat in self.ladder.nodes and min(start, end) < self.at(nat) < max(start, end):
                self.parts.append(f'<circle cx="{self.at(nat):.0f}" cy="{y:.0f}" r="{RING}" fill="#fff" stroke="#000"/>')

    def fate(self, row: Row, end: float, y: int, sign: int) -> None:
        """The fate behind the arrow's end; what an arrow to the left, or to the last column, has beside its word stands below the arrow."""
        is_last = self.ladder.nodes[-1:] == [row.target]
        word, _, rest = row.fate.partition(' ') if (sign < 0 or is_last) and not row.is_lost else (row.fate, '', '')
        look = ('bold', ' class="drop"') if row.is_dropped or row.is_turned else ('normal', '')
        self.text(end + sign * 10, y + 4, word, 'start' if sign > 0 else 'end', *look)
        if rest:
            self.text(end - sign * (10 + PORT * self.has_ends), y + BELOW, rest, 'end' if sign > 0 else 'start')

    def ends(self, row: Row, start: float, end: float, y: int, sign: int) -> None:
        """The ports, below the arrow, each at the NAT that has it."""
        for x, port, side, node in ((start + sign * 4, row.ends[0], sign, row.ports_at[0]), (end - sign * (HEAD + 4), row.ends[1], -sign, row.ports_at[1])):
            at = self.at(node) if node in self.ladder.nodes else x
            is_between = node in self.ladder.nodes and min(start, end) < at < max(start, end)
            self.text(at + side * 6 if is_between else x, y + BELOW, port, 'start' if side > 0 else 'end')

    def cross(self, x: float, y: int) -> None:
        self.line(x - 6, y - 6, x + 6, y + 6, ' stroke-width="2" class="drop"')
        self.line(x - 6, y + 6, x + 6, y - 6, ' stroke-width="2" class="drop"')

    def whole(self) -> list[str]:
        self.columns()
        self.bars()
        moment = None
        for number, row in enumerate(self.ladder.rows):
            y = row_at(number)
            if row.moment != moment:
                self.text(LEFT - 10, y + 4, f'{row.moment:,} ms', 'end')
                moment = row.moment
            self.row(row, y)
        width = self.right + 20
        head = (f'<svg xmlns="http://www.w3.org/2000/svg" width="{width:.0f}" height="{self.height}" '
                f'viewBox="0 0 {width:.0f} {self.height}" font-family="DejaVu Sans, Verdana, sans-serif" font-size="{SIZE}" stroke-width="1">')
        style = '<style>line{stroke:#000} line[stroke]{stroke:#767676} text{paint-order:stroke;stroke:#fff;stroke-width:3px}</style>'
        return [head, f'<title>{xml(self.title)}</title>', style,
                f'<rect width="{width:.0f}" height="{self.height}" fill="#fff"/>'] + self.parts + ['</svg>']


def row_at(number: int) -> int:
    """The height of a row, from the top."""
    return TOP + ROW * number + 16


def svg_of(ladder: Ladder, title: str, has_ends: bool = False) -> list[str]:
    """The lines of a picture, with ports at the arrows' ends or without."""
    return Picture(ladder, title, has_ends).whole()
