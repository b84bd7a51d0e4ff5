"""When each NAT lets somebody in, read from what `state` says that it keeps: a window for each port and whom that lets in."""
from __future__ import annotations

from dataclasses import dataclass

from kept import Kept, Lets, Line, Port, Void
from topology import Topology

RESTART, FORGET = 'restart', 'forget'


@dataclass
class Window:
    """From a record on a port of a NAT lets somebody in: an endpoint, an address, or anyone, whose name is empty. It is shut at the moment
    `until`, or earlier at the record `void`, by a word: the NAT was restarted, or was told to forget whose port it was."""
    nat: str
    port: int
    inside: str
    whom: str
    since: int
    moment: int
    until: int
    void: int | None = None
    word: str = ''


class Windows:
    """The windows of a history, in the order in which they were opened."""

    def __init__(self, kept: Kept, known: Topology) -> None:
        self.cones = {nat for nat in known.of('nat') if known.tables[nat].get('kind') == 'cone'}
        self.found, self.insides = list[Window](), dict[tuple[str, int], str]()
        self.live = {nat: dict[tuple[int, str], Window]() for nat in known.of('nat')}
        for line in kept.lines:
            if line.node in self.live:
                self.add(line)

    def add(self, line: Line) -> None:
        what = line.what
        if isinstance(what, Void):
            self.shut(line, what.inside)
        elif isinstance(what, Lets):
            self.open(line, what.number, what.source, what.until)
        elif isinstance(what, Port):
            self.insides[line.node, what.number] = what.inside
            if what.toward or line.node in self.cones:
                self.open(line, what.number, what.toward or '', what.until)

    def open(self, line: Line, port: int, whom: str, until: int) -> None:
        """Opens a window, or keeps one open that is."""
        live, inside = self.live[line.node], self.insides.get((line.node, port), '')
        known = live.get((port, whom))
        if known is not None and line.moment < known.until and known.inside == inside:
            known.until = until
        else:
            live[port, whom] = Window(line.node, port, inside, whom, line.record, line.moment, until)
            self.found.append(live[port, whom])

    def shut(self, line: Line, inside: str | None) -> None:
        """Shuts what a NAT holds open, or what it does for an endpoint inside alone."""
        live = self.live[line.node]
        for key, window in [(key, window) for key, window in live.items() if inside in (None, window.inside)]:
            del live[key]
            if line.moment < window.until:
                window.void, window.word = line.record, RESTART if inside is None else FORGET


def windows_of(kept: Kept | None, known: Topology) -> list[Window]:
    """All windows; none where nobody says what nodes keep."""
    return Windows(kept, known).found if kept else []


def whom_of(window: Window, known: Topology) -> str:
    """Whom a window lets in, with the name of the node that is there."""
    name = known.node_at(window.whom if ':' in window.whom else f'{window.whom}:') if window.whom else None
    return f'{window.whom} ({name})' if name else window.whom or 'anyone'


def shut_of(window: Window, known: Topology) -> str:
    """When a window is shut, and by what."""
    if window.void is None:
        return f'{window.until:,} ms'
    happened = 'was restarted' if window.word == RESTART else f'was told to forget {known.whose(window.nat, window.inside)}'
    return f'record {window.void}, where {window.nat} {happened}'


def said_of(window: Window, known: Topology) -> str:
    return f'{window.nat} lets in {whom_of(window, known)}, to port {window.port} of {known.whose(window.nat, window.inside)}, ' \
        f'from record {window.since}, {window.moment:,} ms, until {shut_of(window, known)}'
