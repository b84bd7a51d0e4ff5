"""What each node keeps, read from the lines of `state FILE CHAIN each` of the program.

A later line takes the place of an earlier one of the same thing, void ones take away what they name, and what has an end has it: a
port and whom it lets in at the moment behind `until`, a peer, and a try, so long after its latest touch. Nothing else is known here
of what a fate does.
"""
from __future__ import annotations

import bisect
import ipaddress
import re
from collections.abc import Iterable, Iterator
from dataclasses import dataclass, field
from typing import Union

from command import Refusal

# What a reader of these lines needs: how long a peer is listed after it was touched, and a try counts, how long it is fresh after it was
# heard, and what lies between two tries of it, all in milliseconds (RFC 4380, sections 5.2, 5.2.4, 5.2.6); and how many tries bar another.
LISTED_MS, FRESH_MS, TRY_GAP_MS, TRIES_MAX = 300_000, 30_000, 2_000, 4
BEFORE = -1  # the record before any
TOTAL = re.compile(r'total records (\d{1,15})|wire full', re.A)


@dataclass(frozen=True)
class Void:
    """All that the node kept is void, or the ports alone of an endpoint inside, and whom they let in."""
    inside: str | None = None


@dataclass(frozen=True)
class Port:
    """A port of a NAT: whose it is, of a symmetric one toward whom, and when it ends."""
    number: int
    inside: str
    toward: str | None
    until: int


@dataclass(frozen=True)
class Lets:
    """Whom a port lets in, an address or an endpoint, and until when."""
    number: int
    source: str
    until: int


@dataclass(frozen=True)
class Client:
    phase: str
    address: str | None
    due: int | None


@dataclass(frozen=True)
class Relay:
    due: int | None


@dataclass(frozen=True)
class Peer:
    """What a client or relay knows of an address: where it is trusted, when it was heard and touched, its tries, what waits and is held."""
    address: str
    at: str | None = None
    heard: int | None = None
    touched: int | None = None
    tries: tuple[int, ...] = ()
    nonce: str | None = None
    waits: int = 0
    held: int | None = None  # of a relay's peer there is no such number

    def is_listed(self, now: int) -> bool:
        return self.touched is not None and now < self.touched + LISTED_MS

    def is_fresh(self, now: int) -> bool:
        return self.at is not None and self.heard is not None and now < self.heard + FRESH_MS

    def tries_at(self, now: int) -> tuple[int, ...]:
        """The tries that count at a moment."""
        return tuple(moment for moment in self.tries if now < moment + LISTED_MS)

    def barred_until(self, now: int) -> int | None:
        """When the peer may be tried again, where it is barred at a moment: after the gap behind its latest try, and where that makes as many
        as may be, when the first of these no longer counts."""
        tries = self.tries_at(now)
        ends = [moment + TRY_GAP_MS for moment in tries[-1:]] + [moment + LISTED_MS for moment in tries[-TRIES_MAX:1 - TRIES_MAX]]
        return max(ends) if self.is_listed(now) and ends and now < max(ends) else None


What = Union[Void, Port, Lets, Client, Relay, Peer]
Own = Union[Client, Relay]


@dataclass(frozen=True)
class Line:
    """A line of `state`: the number of its record, the moment, the node, and what that keeps of one thing."""
    record: int
    moment: int
    node: str
    what: What


@dataclass
class Node:
    """Where each line of a node stands, by what it is of; void ones apart."""
    own: list[int] = field(default_factory=list)
    voids: list[int] = field(default_factory=list)
    forgotten: dict[str, list[int]] = field(default_factory=dict)
    ports: dict[int, list[int]] = field(default_factory=dict)
    lets: dict[int, dict[str, list[int]]] = field(default_factory=dict)
    peers: dict[str, list[int]] = field(default_factory=dict)

    def add(self, at: int, what: What) -> None:
        if isinstance(what, Void):
            (self.voids if what.inside is None else self.forgotten.setdefault(what.inside, [])).append(at)
        elif isinstance(what, Port):
            self.ports.setdefault(what.number, []).append(at)
        elif isinstance(what, Lets):
            self.lets.setdefault(what.number, {}).setdefault(what.source, []).append(at)
        elif isinstance(what, Peer):
            self.peers.setdefault(what.address, []).append(at)
        else:
            self.own.append(at)


class Kept:
    """The lines of `state`, and what follows from them of each node after any number of them."""

    def __init__(self, text: str) -> None:
        self.lines: list[Line] = []
        self.nodes: dict[str, Node] = {}
        self.totals = ''
        for number, line in enumerate(text.splitlines(), 1):
            if self.totals:
                raise Refusal(f'line {number}: there is no line behind the totals of `state`')
            if TOTAL.fullmatch(line):
                self.totals = line
            else:
                self.add(line_of(line, number))
        if not self.totals:
            raise Refusal('this is no whole answer of `state`: its last line has no totals')
        self.records = [line.record for line in self.lines]

    def add(self, line: Line) -> None:
        self.nodes.setdefault(line.node, Node()).add(len(self.lines), line.what)
        self.lines.append(line)

    def before(self, record: int) -> int:
        """How many lines stand before those of a record."""
        return bisect.bisect_left(self.records, record)

    def after(self, record: int) -> int:
        """How many lines there are up to those of a record."""
        return bisect.bisect_right(self.records, record)

    def of_record(self, record: int) -> list[Line]:
        return self.lines[self.before(record):self.after(record)]

    def touched(self, record: int, node: str) -> Peer | None:
        """The peer of whom a record has a line, where its node is a client or relay."""
        return next((line.what for line in self.of_record(record) if line.node == node and isinstance(line.what, Peer)), None)

    # What holds behind so many lines.

    @staticmethod
    def latest(places: list[int], count: int) -> int | None:
        """The last one of these places that stands within so many lines."""
        at = bisect.bisect_left(places, count)
        return places[at - 1] if at else None

    def is_void(self, known: Node, at: int, count: int, inside: str | None = None) -> bool:
        """Whether a line within so many is void by one behind it."""
        cuts = [self.latest(places, count) for places in (known.voids, known.forgotten.get(inside or '', []))]
        return any(cut is not None and cut > at for cut in cuts)

    def own(self, node: str, count: int) -> Own | None:
        """A client's phase and address, or what a relay has due."""
        known = self.nodes.get(node)
        at = self.latest(known.own, count) if known else None
        what = self.lines[at].what if at is not None else None
        return what if isinstance(what, (Client, Relay)) else None

    def address(self, node: str, count: int) -> str | None:
        own = self.own(node, count)
        return own.address if isinstance(own, Client) else None

    def peer(self, node: str, address: str, count: int, now: int) -> Peer | None:
        """What a node knows of an address, where that is listed at a moment."""
        known = self.nodes.get(node)
        at = self.latest(known.peers.get(address, []), count) if known else None
        if known is None or at is None or self.is_void(known, at, count):
            return None
        peer = self.lines[at].what
        return peer if isinstance(peer, Peer) and peer.is_listed(now) else None

    def peers(self, node: str, count: int, now: int) -> list[Peer]:
        """All that are listed, by their addresses."""
        known = self.nodes.get(node, Node())
        found = (self.peer(node, address, count, now) for address in known.peers)
        return sorted((peer for peer in found if peer), key=lambda peer: ipaddress.IPv6Address(peer.address))

    def port(self, nat: str, number: int, count: int, now: int) -> Port | None:
        """A port of a NAT, where it is live at a moment."""
        port, _ = self.last_port(nat, number, count)
        return port if port and now < port.until else None

    def last_port(self, nat: str, number: int, count: int) -> tuple[Port | None, int]:
        """What was said last of a port, whether it is live or not, unless that is void; and where."""
        known = self.nodes.get(nat)
        at = self.latest(known.ports.get(number, []), count) if known else None
        port = self.lines[at].what if at is not None else None
        if known is None or at is None or not isinstance(port, Port) or self.is_void(known, at, count, port.inside):
            return None, BEFORE
        return port, at

    def ports(self, nat: str, count: int, now: int) -> list[Port]:
        known = self.nodes.get(nat, Node())
        found = (self.port(nat, number, count, now) for number in sorted(known.ports))
        return [port for port in found if port]

    def lets(self, nat: str, number: int, count: int, now: int) -> list[Lets]:
        """Whom a live port lets in at a moment, by address and port."""
        return [one for one in self.said_of_lets(nat, number, count) if now < one.until]

    def said_of_lets(self, nat: str, number: int, count: int) -> list[Lets]:
        """What was said last of each that a port lets in or let in, unless that is void."""
        known, port = self.nodes.get(nat, Node()), self.last_port(nat, number, count)[0]
        found = []
        for places in known.lets.get(number, {}).values() if port else ():
            at = self.latest(places, count)
            what = self.lines[at].what if at is not None else None
            if port and at is not None and isinstance(what, Lets) and not self.is_void(known, at, count, port.inside):
                found.append(what)
        return sorted(found, key=lambda one: by_number(one.source))

    # The same as lines again.

    def whats(self, node: str, count: int, now: int) -> Iterator[What]:
        """All that a node keeps at a moment, in the order of `state .. last`."""
        own = self.own(node, count)
        if own is not None:
            yield own
            yield from (aged(peer, now) for peer in self.peers(node, count, now))
        for port in self.ports(node, count, now):
            yield port
            yield from self.lets(node, port.number, count, now)

    def state(self, count: int, now: int) -> Iterator[tuple[str, What]]:
        """The same of each node, in the order of the nodes."""
        return ((node, what) for node in self.nodes for what in self.whats(node, count, now))


def aged(peer: Peer, now: int) -> Peer:
    """What is known of a peer at a moment: tries that count no longer are left out."""
    return Peer(peer.address, peer.at, peer.heard, peer.touched, peer.tries_at(now), peer.nonce, peer.waits, peer.held)


def by_number(source: str) -> tuple[int, int]:
    """An address, or an endpoint, as numbers."""
    address, _, port = source.partition(':')
    return int(ipaddress.IPv4Address(address)), int(port or 0)


def text_of(what: What) -> str:
    """What a line says behind its node."""
    if isinstance(what, Void):
        return '-' if what.inside is None else f'inside {what.inside} -'
    if isinstance(what, Port):
        return f'port {what.number} inside {what.inside}' + (f' to {what.toward}' if what.toward else '') + f' until {what.until}'
    if isinstance(what, Lets):
        return f'port {what.number} lets {what.source} until {what.until}'
    if isinstance(what, Client):
        return f'{what.phase} {dash(what.address)} due {dash(what.due)}'
    if isinstance(what, Relay):
        return f'due {dash(what.due)}'
    told = f'peer {what.address} at {dash(what.at)} heard {dash(what.heard)} touched {dash(what.touched)} tries {",".join(map(str, what.tries)) or "-"}'
    return told + (f' waits {what.waits}' if what.held is None else f' nonce {dash(what.nonce)} waits {what.waits} held {what.held}')


def dash(value: object) -> str:
    return '-' if value is None else str(value)


def line_of(line: str, number: int = 1) -> Line:
    """A line of `state`, read."""
    words = line.split(' ')
    try:
        record, moment, node, *rest = words
        return Line(BEFORE if record == '-' else int(record), int(moment), node, what_of(rest))
    except (ValueError, IndexError):
        raise Refusal(f'line {number}: this is no line of `state`: {line[:60]}') from None


def what_of(words: list[str]) -> What:
    """What the words behind a node say; who reads them catches a ValueError."""
    if words == ['-']:
        return Void()
    first, count = words[0], len(words)
    if first == 'port':
        return port_of(words)
    if first == 'peer':
        return peer_of(dict(zip(words[::2], words[1::2])))
    if first == 'inside' and count == 3:
        return Void(words[1])
    if first == 'due' and count == 2:
        return Relay(number_or_none(words[1]))
    if count == 4 and words[2] == 'due':
        return Client(first, text_or_none(words[1]), number_or_none(words[3]))
    raise ValueError(first)


def port_of(words: list[str]) -> What:
    _, number, kind, source, *rest = words
    if kind == 'lets' and len(rest) == 2:
        return Lets(int(number), source, int(rest[1]))
    return Port(int(number), source, rest[1] if rest[0] == 'to' else None, int(rest[-1]))


def peer_of(told: dict[str, str]) -> Peer:
    try:
        tries = () if told['tries'] == '-' else tuple(map(int, told['tries'].split(',')))
        return Peer(told['peer'], text_or_none(told['at']), number_or_none(told['heard']), number_or_none(told['touched']), tries,
                    text_or_none(told.get('nonce', '-')), int(told['waits']), int(told['held']) if 'held' in told else None)
    except KeyError as fault:
        raise ValueError(fault) from None


def text_or_none(text: str) -> str | None:
    return None if text == '-' else text


def number_or_none(text: str) -> int | None:
    return None if text == '-' else int(text)


def lines_of(kept: Kept, count: int, record: int, now: int) -> Iterable[str]:
    """The lines that `state .. last` has where so many lines of `state .. each` stand before, but for those of a NAT that has no port."""
    index = '-' if record == BEFORE else str(record)
    return (f'{index} {now} {node} {text_of(what)}' for node, what in kept.state(count, now))
