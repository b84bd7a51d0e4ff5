"""A report of `lab`, read: its records, the entries of the wire, and what became of each.

docs/SCENARIOS.md, "The report", has the lines. A word that isn't known is passed over, as that page asks a script to.
"""
from __future__ import annotations

import bisect
import ipaddress
import re
from collections.abc import Callable
from dataclasses import dataclass, field
from typing import TypeVar, Union

from command import Refusal

NUMBER = r'\d{1,15}'
ENDPOINT = r'\d{1,3}\.\d{1,3}\.\d{1,3}\.\d{1,3}:\d{1,5}'
ENTRY = re.compile(rf'#({NUMBER})=(?:(six)(?::(\w+))?|({ENDPOINT})>({ENDPOINT}))/({NUMBER})$', re.A)
LOSS = re.compile(rf'!(\w+)=({ENDPOINT})/({NUMBER})$', re.A)
NODE = re.compile('[a-z][a-z0-9_]{0,15}')
HEAD = re.compile(rf'({NUMBER}) ({NUMBER}) ({NUMBER}) ([a-z_]{{1,16}}(?::{NUMBER})?) (-|{NODE.pattern}) ([a-z][a-z0-9_]{{0,31}})(?: |$)', re.A)
TOTALS = re.compile(rf'total(?: [a-z_]{{1,16}} {NUMBER}){{1,16}}|wire full', re.A)
COUNT = re.compile(rf'(handed|late|gone)/({NUMBER})$', re.A)
NO_ENTRY = 'no_entry'  # of a delivery of nothing
HANDED_IN = ('host', 'echo', 'raw')  # acts by which a host hands in a packet
SOLICITATIONS = ('rs_cone', 'rs_restricted', 'rs_secondary', 'refresh')
FORWARDS = ('forward', 'forward_origin', 'six', 'sent', 'sent_cone')  # of a delivery: what came goes on
FIXED = {'advert': 'advertisement', 'echoed': 'echo reply', 'put': 'datagram', 'indirect': 'bubble',
         'held_test': 'echo request', 'suspicious_test': 'echo request', 'test': 'echo request', 'bubbles': 'bubble'}
OF_DELIVERY = ('nat_closed', 'nowhere', 'mismatch', 'unlisted', 'held', 'held_test', 'suspicious_test', 'suspicious', 'rule1', 'rule1_bubble',
               'rule2', 'rule3', 'rule3_bubble', 'from_client', 'from_client_bubble', 'unserved', 'indirect', 'echoed')
TRIES = {'queued': {40: 'bubble', 56: 'echo request'}}  # by the length in bytes


@dataclass
class Entry:
    """An entry of the wire: a datagram from `source` to `target`, or an IPv6 packet for a relay or a native host."""
    number: int
    maker: Record
    length: int
    source: str = ''  # an IPv6 packet has neither of the two
    target: str = ''
    relay: str | None = None

    @property
    def is_six(self) -> bool:
        return not self.target

    @property
    def way(self) -> str:
        if self.is_six:
            return f'IPv6, to {self.relay or "a native host"}'
        return f'{self.source} > {self.target}'

    @property
    def text(self) -> str:
        """The mark, as the line has it."""
        way = (f'six:{self.relay}' if self.relay else 'six') if self.is_six else f'{self.source}>{self.target}'
        return f'#{self.number}={way}/{self.length}'


@dataclass
class Loss:
    """What a NAT didn't send: the word behind the mark `!`."""
    word: str
    maker: Record
    target: str
    length: int

    @property
    def text(self) -> str:
        return f'!{self.word}={self.target}/{self.length}'


Mark = Union[Entry, Loss]
Item = TypeVar('Item')


@dataclass
class Record:
    index: int
    moment: int
    event: int
    act: str
    node: str
    fate: str
    address: str | None = None
    handed: int | None = None
    late: list[int] = field(default_factory=list)
    gone: int = 0
    marks: list[Mark] = field(default_factory=list)
    line: str = ''

    @property
    def delivered(self) -> int | None:
        """The number of the entry that was delivered, or None."""
        return int(self.act[8:]) if self.act.startswith('deliver:') else None

    @property
    def entries(self) -> list[Entry]:
        return [mark for mark in self.marks if isinstance(mark, Entry)]

    @property
    def losses(self) -> list[Loss]:
        return [mark for mark in self.marks if isinstance(mark, Loss)]


@dataclass(frozen=True)
class TeredoAddress:
    """The parts of an address in 2001:0::/32 (RFC 4380, section 4)."""
    server: str
    is_cone: bool
    endpoint: str


def teredo_parts(text: str) -> TeredoAddress:
    data = ipaddress.IPv6Address(text).packed
    port = int.from_bytes(data[10:12], 'big') ^ 0xffff
    mapped = ipaddress.IPv4Address(bytes(byte ^ 0xff for byte in data[12:]))
    return TeredoAddress(str(ipaddress.IPv4Address(data[4:8])), bool(data[8] & 0x80), f'{mapped}:{port}')


class Report:
    """The records of a report, its entries by number, and the deliveries of each entry."""

    def __init__(self, text: str) -> None:
        self.records: list[Record] = []
        self.entries: dict[int, Entry] = {}
        self.deliveries: dict[int, list[Record]] = {}
        self.totals = ''
        self.contents: dict[int, str] = {}  # of entries whose content is known from elsewhere
        # For those who look back: by a node's name, and by an endpoint.
        self.by_node: dict[str, list[Record]] = {}
        self.by_source: dict[str, list[Entry]] = {}
        self.addresses: dict[str, list[Record]] = {}
        self.asked: dict[str, Record] = {}
        for number, line in enumerate(text.splitlines(), 1):
            if self.totals:
                raise Refusal(f'line {number}: there is no line behind the totals of a report')
            if TOTALS.fullmatch(line):
                self.totals = line
            else:
                self.add(record_of(line, number), number)
        if not self.totals:
            raise Refusal('this is no whole report: its last line has no totals')

    def add(self, record: Record, number: int = 0) -> None:
        """Takes a record in; one that can't stand behind those before it is refused."""
        known = record.delivered is None or record.delivered in self.entries
        is_right = not record.marks and record.fate == NO_ENTRY if not known else record.delivered is not None or record.fate not in OF_DELIVERY
        if record.index != len(self.records) or not is_right:
            raise Refusal(f'line {number}: this line doesn\'t follow on the lines before it: {record.line[:60]}')
        self.records.append(record)
        self.by_node.setdefault(record.node, []).append(record)
        if record.act == 'restart' or record.address:
            self.addresses.setdefault(record.node, []).append(record)
        if record.fate in SOLICITATIONS:
            self.asked[record.node] = record
        for entry in record.entries:
            if entry.number != len(self.entries):
                raise Refusal(f'line {number}: entry {entry.number} follows on {len(self.entries)} others')
            self.entries[entry.number] = entry
            if entry.source and record.fate != 'put':
                self.by_source.setdefault(entry.source, []).append(entry)
        if record.delivered is not None and known:
            self.deliveries.setdefault(record.delivered, []).append(record)

    def entry_of(self, record: Record) -> Entry | None:
        """The entry that a record delivered, or None: one that was delivered before it was made is none."""
        return None if record.fate == NO_ENTRY else self.entry_at(record.delivered)

    def entry_at(self, number: int | None) -> Entry | None:
        return None if number is None else self.entries.get(number)

    def came_by(self, record: Record) -> Entry:
        """The entry that a record delivered; who asks knows that it is there."""
        assert record.delivered is not None
        return self.entries[record.delivered]

    def delivered(self, entry: Entry) -> list[Record]:
        return self.deliveries.get(entry.number, [])

    def of_node(self, node: str, until: Record | None = None) -> list[Record]:
        """The records in which a node acted or decided, up to a record and without it."""
        return before(self.by_node.get(node, []), until, lambda record: record.index)

    def sent_from(self, endpoint: str, until: Record | None) -> list[Entry]:
        """The entries that left by an endpoint before a record."""
        return before(self.by_source.get(endpoint, []), until, lambda entry: entry.maker.index)

    def address_at(self, node: str, until: Record | None) -> str | None:
        """The Teredo address that a client has before a record, or None."""
        told = before(self.addresses.get(node, []), until, lambda record: record.index)
        return told[-1].address if told else None

    def content(self, mark: Mark) -> str:
        """What a mark is, in a word or two, as far as the report tells."""
        origins = 0
        while True:
            maker = mark.maker
            before = self.entries.get(int(maker.act[5:])) if maker.act.startswith('copy:') else None
            before = before if before and before.maker.index < maker.index else None
            if isinstance(mark, Entry) and mark.number in self.contents:
                return self.contents[mark.number] + ', origin' * origins
            if before is None and maker.delivered in self.entries and maker.fate not in FIXED and self.is_passed_on(mark):
                before, origins = self.came_by(maker), origins + (maker.fate == 'forward_origin')
            if before is None:
                return self.made(mark) + ', origin' * origins
            mark = before

    @staticmethod
    def made(mark: Mark) -> str:
        """What a mark is that wasn't passed on."""
        maker = mark.maker
        if maker.fate in SOLICITATIONS:
            return 'solicitation'
        if maker.act == 'echo' and maker.fate in ('sent', 'sent_cone', 'sent_six'):
            return 'echo request'
        return FIXED.get(maker.fate, TRIES.get(maker.fate, {}).get(mark.length, 'packet'))

    @staticmethod
    def is_passed_on(mark: Mark) -> bool:
        """Whether a mark is the packet whose delivery made it, and not one that waited."""
        if mark.maker.fate == 'from_client':
            return isinstance(mark, Entry) and mark.is_six
        return mark.maker.fate in FORWARDS

    def clients(self) -> list[str]:
        """The clients that acted, in the order in which they did first."""
        return list(self.asked)

    def nodes_at(self) -> dict[str, str]:
        """The node at each endpoint that is known: makers of entries, and who was delivered one."""
        found: dict[str, str] = {}
        for entry in self.entries.values():
            if entry.is_six:
                continue
            if entry.maker.node != '-' and entry.maker.fate != 'put':
                found.setdefault(entry.source, entry.maker.node)
            for record in self.delivered(entry):
                if record.node != '-' and record.fate != 'nat_closed':
                    found.setdefault(entry.target, record.node)
        return found


def before(items: list[Item], until: Record | None, index_of: Callable[[Item], int]) -> list[Item]:
    """The items of a list in order that lie before a record; all where there is none."""
    return items if until is None else items[:bisect.bisect_left(items, until.index, key=index_of)]


def record_of(line: str, number: int = 1) -> Record:
    head = HEAD.match(line)
    if not head or not line.isascii() or not line.isprintable() or head[4] in ('deliver', 'copy'):
        raise Refusal(f'line {number}: this is no line of a report: {line[:60]}')
    index, moment, event, act, node, fate = head.groups()
    record = Record(int(index), int(moment), int(event), act, node, fate, line=line)
    rest = line.split(' ')[6:]
    for at, word in enumerate(rest):
        if word == 'is' and at + 1 < len(rest):
            record.address = address_of(rest[at + 1], number)
        else:
            add_word(record, word)
    return record


def add_word(record: Record, word: str) -> None:
    """Adds a mark or a count to its record; another word is passed over."""
    entry, loss, count = ENTRY.match(word), LOSS.match(word), COUNT.match(word)
    if entry:
        record.marks.append(Entry(int(entry[1]), record, int(entry[6]), entry[4] or '', entry[5] or '', entry[3]))
    elif loss:
        record.marks.append(Loss(loss[1], record, loss[2], int(loss[3])))
    elif count and count[1] == 'handed':
        record.handed = int(count[2])
    elif count and count[1] == 'late':
        record.late.append(int(count[2]))
    elif count:
        record.gone = int(count[2])


def address_of(text: str, number: int) -> str:
    try:
        if '%' in text:  # which is no part of an address
            raise ValueError
        ipaddress.IPv6Address(text)
    except ValueError:
        raise Refusal(f'line {number}: {text[:60]} is no IPv6 address') from None
    return text


def is_report(text: str) -> bool:
    """Whether this is a report, and not a scenario's text."""
    return bool(HEAD.match(text.partition('\n')[0])) or text.startswith(('total ', 'wire full'))

