"""What a picture of a report shows: a column a node, a row for each record and each entry that was lost, and a bar so long a NAT lets
somebody in."""
from __future__ import annotations

import bisect
from collections.abc import Iterable, Iterator
from dataclasses import dataclass

import command
import fates
import topology
from report import NO_ENTRY, Entry, Loss, Mark, Record, Report
from topology import Topology
from windows import Window

STRANGER = 'stranger'
LEFT_OUT = ('advance', 'next', 'settle', 'fault')  # records without a node of their own
Ends = tuple[str, str]
PortsAt = tuple[str | None, str | None]
HAIRPIN = 'hairpin'  # the loss of what a NAT turns back


@dataclass
class Row:
    """An arrow from a column to another, or what happened at one column alone, where there is no `target`.

    An arrow without an end, since its entry was lost, has the column that it was meant for, or None where nobody knows.
    """
    record: int  # the number of its record
    moment: int
    source: str
    target: str | None = None
    label: str = ''  # what travels
    text: str = ''  # who decided, and what
    fate: str = ''
    is_arrow: bool = False
    is_lost: bool = False  # never delivered, or not sent
    is_dropped: bool = False
    ends: Ends = ('', '')  # the ports that it left from and went to
    passes: tuple[str, ...] = ()  # the NATs on its way, as far as it came
    ports_at: PortsAt = (None, None)  # the columns that these ports belong to, where they aren't those of the arrow's ends
    is_turned: bool = False  # its target is the NAT that turned it back
    entry: int | None = None  # the number of what travels, where it has one

    @property
    def is_red(self) -> bool:
        """Whether it was dropped, or not sent."""
        return self.is_dropped or self.fate.startswith('!')


@dataclass
class Bar:
    """A window in rows: from the first one at which it is open up to the first one at which it no longer is. One that was opened before
    all rows has the first one all the same."""
    window: Window
    first: int
    end: int
    is_older: bool


class Ladder:
    """The rows of a report from a record on up to another, and the nodes that stand in them, in the order of a topology; and the windows
    of NATs that are open there."""

    def __init__(self, report: Report, first: int = 0, last: int | None = None, nodes: Iterable[str] = (), known: Topology | None = None,
                 windows: Iterable[Window] = ()) -> None:
        self.report = report
        self.known = known or topology.guessed(report)
        self.at = report.nodes_at()
        records = report.records[first:None if last is None else last + 1]
        if report.records and not records:
            raise command.Refusal(f'there are no records {first} to {len(report.records) - 1 if last is None else last}: '
                                  f'the last one is {len(report.records) - 1}', command.WRONG_WORDS)
        self.rows = [row for record in records for row in self.rows_of(record)]
        self.nodes = self.columns(list(nodes))
        self.bars = self.bars_of(windows)

    def bars_of(self, windows: Iterable[Window]) -> list[Bar]:
        """The windows that are open at a row, of NATs that are columns."""
        numbers, moments, found = [row.record for row in self.rows], [row.moment for row in self.rows], list[Bar]()
        for window in windows:
            end = bisect.bisect_left(moments, window.until) if window.void is None else bisect.bisect_left(numbers, window.void)
            bar = Bar(window, bisect.bisect_left(numbers, window.since), end, bool(numbers) and window.since < numbers[0])
            if bar.first < bar.end and window.nat in self.nodes:
                found.append(bar)
        return found

    def columns(self, nodes: list[str]) -> list[str]:
        seen: dict[str, None] = dict.fromkeys(name for row in self.rows for name in (row.source, row.target, *(() if nodes else row.passes)) if name)
        everybody = dict.fromkeys([*self.known.kinds, *seen, *self.report.by_node])
        unknown = [name for name in nodes if name not in everybody or name == '-']
        if unknown:
            known = ', '.join(name for name in everybody if name != '-')
            raise command.Refusal(f'there is no node {unknown[0]}; here is {known}', command.WRONG_WORDS)
        return list(dict.fromkeys(nodes + topology.columns(self.known, seen)))

    def rows_of(self, record: Record) -> Iterator[Row]:
        if record.fate == NO_ENTRY or record.act in LEFT_OUT and record.fate == 'done':
            return
        yield self.row_of(record)
        for mark in record.marks:
            if isinstance(mark, Loss):
                yield self.lost(record, mark, self.report.content(mark), f'!{mark.word}', f'!{mark.word}')
            elif not self.report.delivered(mark):
                yield self.lost(record, mark, self.label(mark), f'#{mark.number} never delivered', 'never delivered')

    def lost(self, record: Record, mark: Mark, label: str, text: str, fate: str) -> Row:
        source, way = self.name(record), self.way(record, mark, None)
        nat = self.known.turned_back_by(record.node, mark.target) if isinstance(mark, Loss) and mark.word == HAIRPIN else None
        target = nat or self.meant_for(mark)
        if isinstance(mark, Loss):  # what wasn't sent passed those NATs alone that stand before the one that turned it back
            way = way[:way.index(nat)] if nat else []
        return Row(record.index, record.moment, source, None if target == source else target, label, text, fate, True, True, ends=self.ends(mark),
                   passes=tuple(way), ports_at=self.ports_at(record, mark), is_turned=nat is not None, entry=getattr(mark, 'number', None))

    def way(self, maker: Record, mark: Mark, node: str | None) -> list[str]:
        """The NATs on the way of what a record made to a node."""
        is_sent = maker.fate != 'put' and not (isinstance(mark, Entry) and mark.is_six)
        return self.known.way(maker.node, is_sent, node)

    def ports_at(self, maker: Record, mark: Mark) -> PortsAt:
        """The nodes that the ports at both ends of a datagram belong to: of what a client sends its outermost NAT's own."""
        out = self.way(maker, mark, None)
        return out[-1] if out else None, self.known.node_at(mark.target) if mark.target else None

    def row_of(self, record: Record) -> Row:
        entry = self.report.entry_of(record)
        is_drop = fates.is_drop(record.fate)
        fate = ' '.join([record.act if record.fate == 'done' else record.fate] + notes(record))
        if entry is None:
            return Row(record.index, record.moment, self.name(record), None, '', line_of(record), fate, is_dropped=is_drop)
        target = record.node if record.node != '-' else None
        return Row(record.index, record.moment, self.name(entry.maker), target, self.label(entry), line_of(record), fate, True,
                   target is None, is_drop, self.ends(entry), tuple(self.way(entry.maker, entry, record.node)), self.ports_at(entry.maker, entry), entry=entry.number)

    def label(self, entry: Entry) -> str:
        return f'#{entry.number} {self.report.content(entry)}'

    def meant_for(self, mark: Mark) -> str | None:
        """The column towards which something went that came nowhere, or None where nobody knows."""
        if isinstance(mark, Entry) and mark.is_six:
            return mark.relay
        return self.at.get(mark.target) or self.known.node_at(mark.target)

    def ends(self, mark: Mark) -> Ends:
        """The ports at both ends of a datagram, that of a server's second address behind a Q."""
        left, right = (self.port(endpoint) if endpoint else '' for endpoint in (getattr(mark, 'source', ''), mark.target))
        return left, right

    def port(self, endpoint: str) -> str:
        return ('Q:' if self.known.is_secondary(endpoint) else ':') + endpoint.rpartition(':')[2]

    @staticmethod
    def name(record: Record) -> str:
        return record.node if record.node != '-' else STRANGER


def notes(record: Record) -> list[str]:
    """The words of a record behind its fate, without its marks."""
    words = [f'is {record.address}'] if record.address else []
    words += [f'handed/{record.handed}'] if record.handed is not None else []
    words += [f'late/{length}' for length in record.late]
    return words + ([f'gone/{record.gone}'] if record.gone else [])


def line_of(record: Record) -> str:
    """A record in short: its marks are the numbers of their entries alone."""
    words = [str(record.index), record.act, record.node, record.fate] + notes(record)
    words += [f'#{mark.number}' for mark in record.entries] + [f'!{loss.word}' for loss in record.losses]
    return ' '.join(words)
