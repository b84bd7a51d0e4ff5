"""What a capture itself has of a server: how much to it and from it, what isn't whole, and checksums that are wrong. By that
it is told where a verdict is none."""
from __future__ import annotations

import collections
import ipaddress
from collections.abc import Collection

import datagrams

PORT = 3544
PORT_BYTES = PORT.to_bytes(2, 'big')
OTHERS_MAX = 1000  # addresses of other servers that are kept
SENDERS_MAX = 100_000  # of what isn't whole
NAMED_MAX = 8  # records that are named in lines of one kind
REASONED_MAX = 24  # answers of which it is asked why they aren't licensed


class Seen:
    """What is told of each packet, in order."""

    def __init__(self, servers: Collection[str], looks_at_sums: bool = False) -> None:
        self.servers, self.looks_at_sums = set(servers), looks_at_sums
        self.packed = {ipaddress.IPv4Address(server).packed for server in servers}
        self.elsewhere = collections.Counter[bytes]()  # with port 3544, at none of the two addresses
        self.cut, self.cut_all = 0, 0  # short of bytes, to or from the two, and of all
        self.unwhole, self.is_full = dict[str, int](), False  # who sent what isn't whole, and the first record of it
        self.wrong, self.not_made, self.asked = dict[int, tuple[str, datagrams.Sum]](), 0, 0

    def see_cut(self, number: int, packet: bytes) -> None:
        """A packet that was cut when it was captured."""
        self.cut_all += 1
        if self.see_unwhole(number, packet):
            self.cut += 1

    def see_unwhole(self, number: int, packet: bytes) -> bool:
        """A packet of which not all is there; whether it is to the server or from it, as far as it tells that."""
        if len(packet) < datagrams.HEADER_MIN or packet[9] != datagrams.UDP:
            return False
        source, destination = (datagrams.text_of(packet[at:at + 4]) for at in (12, 16))
        size = (packet[0] & 15) * 4
        ports = packet[size:size + 4] if not datagrams.word_at(packet, 6) & datagrams.OFFSET and len(packet) >= size + 4 else b''
        from_port, to_port = (datagrams.word_at(ports, 0), datagrams.word_at(ports, 2)) if ports else (None, None)
        if destination in self.servers and to_port in (None, PORT):
            self.is_full = self.is_full or len(self.unwhole) >= SENDERS_MAX
            if not self.is_full:
                self.unwhole.setdefault(source if from_port is None else f'{source}:{from_port}', number)
            return True
        return source in self.servers and from_port in (None, PORT)

    def see(self, number: int, packet: bytes) -> None:
        """A whole packet."""
        size, _ = datagrams.udp_at(packet)
        if not size:
            return
        for address, port in ((packet[16:20], packet[size + 2:size + 4]), (packet[12:16], packet[size:size + 2])):
            if port == PORT_BYTES and address not in self.packed and len(self.elsewhere) < OTHERS_MAX:
                self.elsewhere[address] += 1
        if self.looks_at_sums and packet[size + 2:size + 4] == PORT_BYTES and packet[16:20] in self.packed:
            self.see_sums(number, packet)

    def see_sums(self, number: int, packet: bytes) -> None:
        """A whole datagram to the server: are its checksums right?"""
        self.asked += 1
        sums = (('IPv4', datagrams.header_sum(packet)), ('UDP', datagrams.udp_sum(packet)))
        wrong = [(name, found) for name, found in sums if found.verdict == datagrams.WRONG]
        if wrong:
            self.wrong[number] = wrong[0]
        elif any(found.verdict == datagrams.NOT_MADE for _, found in sums):
            self.not_made += 1

    def unwhole_from(self, end: str, before: int) -> int | None:
        """A record before this one that isn't whole, of this endpoint's or of its address; None where there is none, and -1 where
        there are more than are kept."""
        found = [self.unwhole[sender] for sender in (end, end.rpartition(':')[0]) if self.unwhole.get(sender, before) < before]
        return min(found) if found else -1 if self.is_full else None


class Heard:
    """What `explain` said: what nothing licenses, and whether each of that may have been drawn by what isn't whole."""

    def __init__(self, seen: Seen) -> None:
        self.seen, self.unlicensed = seen, list[tuple[int, str, list[str]]]()
        self.was_given: tuple[int, int] | None = None  # a datagram with a wrong checksum, and the answer that it licenses

    def hear(self, number: int, what: str) -> None:
        if not what.startswith('answered '):
            return
        _, end, word, *rest = what.split(' ')
        if word == 'licensed':
            if self.was_given is None and int(rest[-1]) in self.seen.wrong:
                self.was_given = int(rest[-1]), number
            return
        self.unlicensed.append((number, end, rest))

    def is_all_in_doubt(self) -> bool:
        return all(self.seen.unwhole_from(end, number) is not None for number, end, _ in self.unlicensed)


def more(count: int, named: int, what: str) -> list[str]:
    return [f'and {count - named} more {what}'] if count > named else []


def nothing_judged(seen: Seen, asked: int, answered: int) -> str:
    """Why a capture says nothing of a server."""
    pair = ' and '.join(sorted(seen.servers, key=lambda address: tuple(map(int, address.split('.')))))
    if seen.cut:
        why = f'{asked} to it and {answered} from it, and {seen.cut} that were cut short when they were captured: whole ones are captured by tcpdump -s 0.'
    elif asked or answered:
        have = f'{asked} to it and none from it' if asked else f'{answered} from it and none to it'
        why = f'{have}, at port {PORT} of {pair}: was it captured in one direction alone, or did it answer nothing?'
    else:
        why = f'none to port {PORT} of {pair} and none from it: are these its addresses?'
    others = ', '.join(f'{datagrams.text_of(address)} ({count})' for address, count in seen.elsewhere.most_common(3))
    there = f' Datagrams of port {PORT} are there at {others}.' if others and not (asked or answered) else ''
    return f'nothing was judged. Of whole datagrams it has {why}{there} docs/CAPTURES.md, "Where nothing was judged"'


def cut_lines(seen: Seen, packets: int) -> list[str]:
    if not seen.cut_all:
        return []
    return [f'not all was judged. {seen.cut_all} of {packets} packets were cut short when they were captured, {seen.cut} of them '
            f'to the server or from it; whole ones are captured by tcpdump -s 0']


def checksum_lines(seen: Seen, heard: Heard) -> list[str]:
    """What the checksums of datagrams to the server say of whether the system gave them to it."""
    lines = [f'record {number}: the {name} checksum is {found.said:04x}, and {found.found:04x} is right: '
             f'{"the system gave this datagram to nobody" if heard.was_given is None else "no verdict, see below"}'
             for number, (name, found) in list(seen.wrong.items())[:NAMED_MAX]] + more(len(seen.wrong), NAMED_MAX, 'with a wrong checksum')
    if heard.was_given:
        asked, answer = heard.was_given
        lines.append(f'record {asked} has a wrong checksum, and record {answer} answers it: this capture was made before a card '
                     'put the checksums in, so of none of them it is known whether the system took it')
    if seen.not_made:
        lines.append(f'{seen.not_made} of {seen.asked} datagrams to the server have a checksum that is not made yet: captured where '
                     'they were sent, or between networks of one machine, before a card makes it. Nothing is said of those')
    return lines
