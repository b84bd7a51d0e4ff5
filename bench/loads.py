"""What `measure.py` gives the program to do: scenarios and captures that are as large as they may be, made anew each time.

A scenario is drawn with a seed of its own, by `random()` alone, whose numbers are the same with every Python: so two
machines, and two days, play the same one.
"""
import ipaddress
import random
import struct

import make
from scenario import Scenario

EVENTS_MAX = 50_000
WIRE_MAX = 65_536
CAPTURE_MAX = 96 << 20  # bytes
SEED = 4380
KINDS = ('cone', 'restricted', 'port', 'symmetric')
SERVERS, CLIENTS, RELAYS, NATIVES = 8, 64, 4, 64
SERVER, OTHER_SERVER = '192.0.2.1', '192.0.2.3'
STRANGER = '203.0.113.5'
FIRST_PORT = 1024
REFRESH_MS = 30_000
REFRESH_MAX = 1_000_000
ADVANCE_MAX = 1_000_000_000
IDLE_MS = 60_000
PEER_EVENTS = 3 * 16_384
MAPPING_EVENTS = 40_000

# How many bytes a body has: each of these lengths as often as the others.
BODIES = [4] * 20 + [64] * 10 + [400] * 2 + [1200]


class Drawn:
    """Events that are drawn. Each kind is a method, whose name stands in SHARES with its part of a thousand events."""

    SHARES = ((500, 'next'), (40, 'deliver'), (200, 'advance'), (100, 'to_client'), (60, 'to_native'), (60, 'from_native'),
              (10, 'echo'), (5, 'copy'), (2, 'restart'), (4, 'fault'), (9, 'settle'), (10, 'to_address'))

    def __init__(self, natives):
        self.random = random.Random(SEED).random
        self.natives = natives

    def below(self, end):
        return int(self.random() * end)

    def event(self):
        place = self.below(1000)
        for share, kind in self.SHARES:
            place -= share
            if place < 0:
                return getattr(self, kind)()
        raise AssertionError('the shares are those of a thousand')

    def client(self):
        return f'c{self.below(CLIENTS)}'

    def host(self):
        return f'h{self.below(NATIVES)}' if self.natives else self.client()

    def body(self):
        return f'{self.below(1 << 32):08x}'.zfill(2 * BODIES[self.below(len(BODIES))])

    def next(self):
        return 'next'

    def deliver(self):
        return f'deliver {self.below(WIRE_MAX)}'

    def advance(self):
        return f'advance {self.below(60)}'

    def to_client(self):
        return f'host {self.client()} {self.client()} {self.body()}'

    def to_native(self):
        return f'host {self.client()} {self.host()} {self.body()}'

    def from_native(self):
        return f'host {self.host()} {self.client()} {self.body()}'

    def echo(self):
        return f'echo {self.client()} {self.host()} {self.below(1 << 16)}'

    def copy(self):
        return f'copy {self.below(20_000)} 203.0.113.99:9 198.51.100.{1 + self.below(CLIENTS)}:{FIRST_PORT}'

    def restart(self):
        return f'restart {self.client()}' if self.below(3) else f'restart n{self.below(CLIENTS)}'

    def fault(self):
        return f'fault {self.below(8)}'

    def settle(self):
        return 'settle'

    def to_address(self):
        return f'host {self.client()} 2001:db8::{1 + self.below(NATIVES):x} 00'


class DrawnInChains(Drawn):
    """The same without the words that `nested` leaves out."""

    def fault(self):
        return 'next'

    def settle(self):
        return 'next'


def drawn_events(lab, draw, count):
    while len(lab.events) < count:
        lab.event(draw.event())


def clients(count=EVENTS_MAX):
    """So many events of 64 clients behind 64 NATs of all kinds, with 8 servers, 4 relays and 64 native hosts."""
    lab = Scenario(seed=SEED)
    for number in range(SERVERS):
        lab.server(f's{number}')
    for number in range(RELAYS):
        lab.relay(f'r{number}')
    for number in range(CLIENTS):
        nat = lab.nat(f'n{number}', KINDS[number % len(KINDS)])
        flags = {'flags': 'random'} if number // 4 % 2 else {}
        tries = {'cone_try': False} if number // 8 % 2 else {}
        lab.client(f'c{number}', nat, f's{number % SERVERS}', **flags, **tries)
    for number in range(NATIVES):
        lab.native(f'h{number}', f'r{number % RELAYS}')
    lab.qualify()
    drawn_events(lab, Drawn(natives=True), count)
    return lab.text()


def chained():
    """50,000 events of 64 clients, each behind a NAT of its own, of which 63 stand in chains of three; and the chain."""
    chain = ','.join(f'n{inner}:n{inner + 1}' for inner in range(CLIENTS - 1) if inner % 3 < 2)
    lab = Scenario(seed=SEED, chain=chain)
    for number in range(SERVERS):
        lab.server(f's{number}')
    for number in range(CLIENTS):
        nat = lab.nat(f'n{number}', KINDS[(number + number // 3) % 3])  # a symmetric one would leave most without an address
        lab.client(f'c{number}', nat, f's{number % SERVERS}')
    # Until each has its address: three questions and their answers of each at most.
    for milliseconds, deliveries in ((0, 2), (12_000, 6), (0, 2)):
        lab.event(f'advance {milliseconds}', *['next'] * deliveries * CLIENTS)
    drawn_events(lab, DrawnInChains(natives=False), EVENTS_MAX)
    return lab.text(), chain


def one_client(kind='cone', refresh=REFRESH_MS, **more):
    lab = Scenario()
    lab.server('s1')
    lab.client('a', lab.nat('n1', kind, idle=IDLE_MS), refresh=(refresh, refresh), **more)
    return lab


def refreshes(entries):
    """A client that refreshes until the wire has so many entries; with one more than WIRE_MAX it ends full."""
    lab = one_client()
    lab.event('advance 0', 'settle')
    left = REFRESH_MS * (entries - 2)
    while left:
        lab.event(f'advance {min(left, ADVANCE_MAX)}')
        left -= min(left, ADVANCE_MAX)
    return lab.text()


def mapped(number):
    """Where a client is seen, whose NAT is of this number."""
    return f'198.51.100.{number}:{FIRST_PORT}'


def peers(clients_count, peers_count):
    """Clients with so many peers each, and PEER_EVENTS: a peer's datagram each turn, then their deliveries, then an answer each."""
    turns = PEER_EVENTS // 3
    lab = Scenario()
    lab.server('s1')
    for number in range(1, clients_count + 1):
        lab.client(f'c{number}', lab.nat(f'n{number}', 'cone'), refresh=(REFRESH_MAX, REFRESH_MAX))
    lab.event('advance 0', 'settle')
    first = 2 * clients_count  # entries: a question and an answer each
    pairs = [pair(turn, clients_count, peers_count) for turn in range(turns)]
    lab.event(*(f'stranger {peer} {mapped(number)} {bubble_of(peer, number)}' for number, peer in pairs))
    lab.event(*(f'deliver {first + turn}' for turn in range(turns)))
    lab.event(*(f'host c{number} {make.teredo(SERVER, peer)} 00' for number, peer in pairs))
    return lab.text()


def pair(turn, clients_count, peers_count):
    """The client's number and the peer's endpoint of a turn: all clients in turn, and then the next peer of each."""
    number, peer = turn % clients_count, turn // clients_count % peers_count
    return number + 1, f'{STRANGER}:{FIRST_PORT + peer}'


def bubble_of(peer, number):
    return make.bubble(make.teredo(SERVER, peer), make.teredo(SERVER, mapped(number), cone=True)).hex()


def mappings(count):
    """A symmetric NAT with so many live mappings: a client sends MAPPING_EVENTS packets to as many peers in turn.

    No client has an address behind such a NAT. This one is deceived: its second question is asked again from the port of
    the first one, and the answer comes back to it in the server's name. Then its mappings to the server die.
    """
    lab = one_client('symmetric', refresh=REFRESH_MAX, cone_try=False)
    first, second = mapped(1), f'198.51.100.1:{FIRST_PORT + 1}'
    other = '192.0.2.2:3544'
    lab.event('advance 0', 'next', 'next', 'advance 0', f'copy 2 {first} {other}', 'deliver 3', f'copy 4 {other} {second}',
              'deliver 5', f'advance {IDLE_MS}')
    addresses = [make.teredo(SERVER, f'{STRANGER}:{FIRST_PORT + number}', cone=True) for number in range(count)]
    lab.event(*(f'host a {addresses[turn % count]} 00' for turn in range(MAPPING_EVENTS)))
    return lab.text()


def nothing():
    """A scenario without nodes and events: what a run costs in which nothing happens."""
    return Scenario().text()


# Captures: the classic form, raw IP, microseconds, in network order.
CAPTURE_HEAD = struct.pack('>IHHIIII', 0xa1b2c3d4, 2, 4, 0, 0, 65_535, 101)


def record(packet):
    return struct.pack('>IIII', 0, 0, len(packet), len(packet)) + packet


def datagram(source, target, payload):
    """A UDP datagram over IPv4 without checksums, by which no audit goes."""
    (source_ip, source_port), (target_ip, target_port) = source.split(':'), target.split(':')
    udp = struct.pack('>HHHH', int(source_port), int(target_port), 8 + len(payload), 0) + payload
    return struct.pack('>BBHHHBBH', 0x45, 0, 20 + len(udp), 0, 0, 64, 17, 0) + make.ip4(source_ip) + make.ip4(target_ip) + udp


def filled(one_record):
    """The head, and as many of these records as there is room for."""
    return CAPTURE_HEAD + one_record * ((CAPTURE_MAX - len(CAPTURE_HEAD)) // len(one_record))


def empty_records():
    return filled(record(b''))


def to_server(target):
    """The smallest datagram that a server answers: a bubble, here for a client of another server."""
    source = f'{STRANGER}:{FIRST_PORT}'
    bubble = make.bubble(make.teredo(SERVER, source), make.teredo(OTHER_SERVER, target))
    return record(datagram(source, f'{SERVER}:3544', bubble))


def same_datagrams():
    return filled(to_server('198.51.100.7:40000'))


def answered_datagrams():
    """Each has a destination of its own, in its last six bytes, so each draws an answer of its own."""
    one_record = to_server('198.51.100.7:40000')
    front = one_record[:-6]
    count = (CAPTURE_MAX - len(CAPTURE_HEAD)) // len(one_record)
    return CAPTURE_HEAD + b''.join(front + hidden(number) for number in range(count))


def destination(number):
    """256 ports of each of many addresses, 8.0.0.0 and so on."""
    return 0x08000000 + number // 256, FIRST_PORT + number % 256


def hidden(number):
    """The port and the address of a destination, as a Teredo address hides them."""
    address, port = destination(number)
    return struct.pack('>HI', 0xffff ^ port, 0xffffffff ^ address)


def answered_at_once(count):
    """Records, two by two: a question with a destination of its own, and its answer."""
    question = to_server('198.51.100.7:40000')[:-6]
    bubble = question[-34:]
    for number in range(count):
        address, port = destination(number)
        target = f'{ipaddress.IPv4Address(address)}:{port}'
        yield question + hidden(number) + record(datagram(f'{SERVER}:3544', target, bubble + hidden(number)))
