"""Reads the packets of a capture, whichever of the usual forms it has.

`packets(file)` goes through classic pcap (either order of bytes, micro- or nanoseconds) and pcapng, and gives for each
packet its moment in nanoseconds, the link it was taken at, its bytes, how many there were, and where in the file it begins.
`ip_of` takes the link's own header off. Nothing is kept but one packet and the interfaces of a pcapng file.
"""
import struct
from collections.abc import Iterator
from typing import BinaryIO, NamedTuple


class Packet(NamedTuple):
    nanoseconds: int
    link: int
    data: bytes
    length: int
    place: int


class Interface(NamedTuple):
    """Of pcapng: the link, the most bytes kept of a packet, and how many units of time a second has."""
    link: int
    most: int
    units: int


# Links, by the numbers of the registry of link types.
NULL, ETHERNET, RAW_BSD, RAW_OPENBSD, RAW, LOOP, COOKED, IPV4, IPV6, COOKED_2 = 0, 1, 12, 14, 101, 108, 113, 228, 229, 276
LINK_NAMES = {
    NULL: 'BSD loopback', ETHERNET: 'Ethernet', RAW_BSD: 'raw IP', RAW_OPENBSD: 'raw IP', RAW: 'raw IP',
    LOOP: 'OpenBSD loopback', COOKED: 'Linux cooked', IPV4: 'raw IPv4', IPV6: 'raw IPv6', COOKED_2: 'Linux cooked v2',
}
RAW_LINKS = (RAW_BSD, RAW_OPENBSD, RAW, IPV4, IPV6)

ETHERTYPES = (0x0800, 0x86dd)  # IPv4, IPv6
VLAN_TAGS = (0x8100, 0x88a8, 0x9100)  # IEEE 802.1Q, 802.1ad, and what came before it
VLAN_TAG_BYTES = 4
PPPOE_SESSION = 0x8864  # RFC 2516, section 4
PPPOE_BYTES, PPP_BYTES = 6, 2
PPP_PROTOCOLS = (0x0021, 0x0057)  # IPv4 (RFC 1332), IPv6 (RFC 5072)
FAMILIES = {2, 10, 24, 28, 30}  # of both loopback forms: AF_INET everywhere; AF_INET6 of several systems
ETHERNET_BYTES, COOKED_BYTES, COOKED_2_BYTES, LOOPBACK_BYTES = 14, 16, 20, 4

CLASSIC = {
    b'\xd4\xc3\xb2\xa1': ('<', 1000), b'\xa1\xb2\xc3\xd4': ('>', 1000),
    b'\x4d\x3c\xb2\xa1': ('<', 1), b'\xa1\xb2\x3c\x4d': ('>', 1),
}
HEAD_BYTES, RECORD_HEAD_BYTES = 24, 16
VERSION = (2, 4)
SECTION, INTERFACE, OLD_PACKET, SIMPLE, ENHANCED = 0x0a0d0d0a, 1, 2, 3, 6
PCAPNG = struct.pack('>I', SECTION)
ORDER_MARK = 0x1a2b3c4d
RESOLUTION = 9  # the option of an interface that says what a unit of time is
IPV4_HEADER_MIN = 20
RECORD_MAX = 16 * 1024 * 1024  # bytes of a block or record: more is no capture that a tool writes


class NoCapture(Exception):
    """Why the bytes are none, and what `audit` says of such a file behind the word `capture`."""

    def __init__(self, text: str, line: str) -> None:
        super().__init__(text)
        self.line = line


class Torn(Exception):
    """The file ends within its last record, as where its writer was ended or its disk was full."""


class Reader:
    """A file that is read from its begin on, and how far that is."""

    def __init__(self, file: BinaryIO) -> None:
        self.file, self.at = file, 0

    def take(self, count: int) -> bytes:
        data = self.file.read(count)
        self.at += len(data)
        return data

    def whole(self, count: int, begun: int) -> bytes:
        """So many bytes of what began at a place: where the file ends before, that is torn."""
        data = self.take(count)
        if len(data) < count:
            raise Torn(f'of its last record, which begins at byte {begun}, {self.at - begun} bytes are there')
        return data


def packets(file: BinaryIO) -> Iterator[Packet]:
    """The packets of a file that is open for reading bytes."""
    reader = Reader(file)
    magic = reader.take(4)
    if magic in CLASSIC:
        yield from classic(reader, *CLASSIC[magic])
    elif magic == PCAPNG:
        yield from pcapng(reader)
    elif len(magic + reader.take(HEAD_BYTES - 4)) < HEAD_BYTES:
        raise NoCapture('ends in the middle of the head' if magic else 'is empty', 'cut at 0')
    else:
        raise NoCapture('is neither pcap nor pcapng', 'magic')


def classic(reader: Reader, order: str, unit: int) -> Iterator[Packet]:
    head = reader.take(HEAD_BYTES - 4)
    if len(head) < HEAD_BYTES - 4:
        raise NoCapture('ends in the middle of the head', 'cut at 0')
    *version, _, _, _, link = struct.unpack(f'{order}HHiIII', head)
    if tuple(version) != VERSION:
        raise NoCapture(f'is of version {version[0]}.{version[1]}', 'version')
    record_head = struct.Struct(f'{order}IIII')
    while True:
        begun, head = reader.at, reader.take(RECORD_HEAD_BYTES)
        if not head:
            return
        head += reader.whole(RECORD_HEAD_BYTES - len(head), begun)
        seconds, fraction, kept, length = record_head.unpack(head)
        if kept > RECORD_MAX:
            raise NoCapture(f'has a record of {kept} bytes', f'big at {begun}')
        yield Packet(seconds * 10 ** 9 + fraction * unit, link & 0xffff, reader.whole(kept, begun), length, begun)


def pcapng(reader: Reader) -> Iterator[Packet]:
    order, interfaces, begun, kind_bytes = '>', list[Interface](), 0, PCAPNG
    while kind_bytes:
        try:
            order, kind, body = block(reader, order, begun, kind_bytes + reader.whole(4 - len(kind_bytes), begun))
        except Torn:
            if begun == 0:
                raise NoCapture('ends in the middle of the head', 'cut at 0') from None
            raise
        if kind == SECTION:
            interfaces = []
        elif kind == INTERFACE:
            interfaces.append(interface(order, body, begun))
        elif kind in (ENHANCED, OLD_PACKET, SIMPLE):
            yield block_packet(order, kind, body, interfaces, begun)
        begun = reader.at
        kind_bytes = reader.take(4)


def block(reader: Reader, order: str, begun: int, kind_bytes: bytes) -> tuple[str, int, bytes]:
    """The order of bytes in a block, its kind and its body."""
    size_bytes, mark = reader.whole(4, begun), b''
    if kind_bytes == PCAPNG:
        mark = reader.whole(4, begun)
        order = '<' if struct.unpack('<I', mark)[0] == ORDER_MARK else '>'
        if struct.unpack(f'{order}I', mark)[0] != ORDER_MARK:
            raise broken('a section without its mark', begun)
    size = struct.unpack(f'{order}I', size_bytes)[0]
    if not 12 + len(mark) <= size <= RECORD_MAX or size % 4:
        raise broken(f'a block of {size} bytes', begun)
    body = reader.whole(size - 12 - len(mark), begun)
    if reader.whole(4, begun) != size_bytes:
        raise broken('a block with two lengths', begun)
    return order, struct.unpack(f'{order}I', kind_bytes)[0], body


def broken(what: str, begun: int) -> NoCapture:
    return NoCapture(f'has {what}, at byte {begun}', f'cut at {begun}')


def interface(order: str, body: bytes, begun: int) -> Interface:
    if len(body) < 8:
        raise broken('an interface that is too short', begun)
    link, _, most = struct.unpack(f'{order}HHI', body[:8])
    units, at = 10 ** 6, 8
    while at + 4 <= len(body):
        code, size = struct.unpack(f'{order}HH', body[at:at + 4])
        if code == RESOLUTION and size >= 1 and at + 4 < len(body):
            power = body[at + 4]
            units = 2 ** (power & 0x7f) if power & 0x80 else 10 ** power
        at += 4 + (size + 3) // 4 * 4
    return Interface(link, most, units)


def block_packet(order: str, kind: int, body: bytes, interfaces: list[Interface], begun: int) -> Packet:
    if kind == SIMPLE:
        if len(body) < 4 or not interfaces:
            raise broken('a packet without an interface', begun)
        link, most, _ = interfaces[0]
        length = struct.unpack(f'{order}I', body[:4])[0]
        kept = min(length, most or length)
        if kept > len(body) - 4:
            raise broken('a packet that is longer than its block', begun)
        return Packet(0, link, body[4:4 + kept], length, begun)
    if len(body) < 20:
        raise broken('a packet block that is too short', begun)
    if kind == ENHANCED:
        which, high, low, kept, length = struct.unpack(f'{order}IIIII', body[:20])
    else:
        which, _, high, low, kept, length = struct.unpack(f'{order}HHIIII', body[:20])
    if which >= len(interfaces):
        raise broken('a packet without an interface', begun)
    if kept > len(body) - 20:
        raise broken('a packet that is longer than its block', begun)
    link, _, units = interfaces[which]
    return Packet((high << 32 | low) * 10 ** 9 // units, link, body[20:20 + kept], length, begun)


def ip_of(link: int, data: bytes) -> bytes | None:
    """The IP packet in a frame of this link, without the link's header, and an IPv4 packet without what pads it; None where
    there is none."""
    at, is_ip = behind_link(link, data)
    packet = data[at:]
    if not is_ip or not packet:
        return None
    said = int.from_bytes(packet[2:4], 'big')  # RFC 791, section 3.1: the total length
    return packet[:said] if packet[0] >> 4 == 4 and IPV4_HEADER_MIN <= said < len(packet) else packet


def behind_link(link: int, data: bytes) -> tuple[int, bool]:
    """Where what the link carries begins, and whether the link says that this is IP."""
    if link in RAW_LINKS:
        return 0, True
    if link in (NULL, LOOP):
        head = data[:LOOPBACK_BYTES]
        return LOOPBACK_BYTES, bool({int.from_bytes(head, 'big'), int.from_bytes(head, 'little')} & FAMILIES)
    if link == ETHERNET:
        return behind_type(data, type_at(data, ETHERNET_BYTES - 2), ETHERNET_BYTES)
    if link == COOKED:
        return behind_type(data, type_at(data, COOKED_BYTES - 2), COOKED_BYTES)
    return behind_type(data, type_at(data, 0), COOKED_2_BYTES)


def behind_type(data: bytes, kind: int, at: int) -> tuple[int, bool]:
    """The same of what has this Ethernet type and begins there: VLAN tags and PPPoE go before the packet."""
    while kind in VLAN_TAGS:
        kind, at = type_at(data, at + VLAN_TAG_BYTES - 2), at + VLAN_TAG_BYTES
    if kind == PPPOE_SESSION:
        return at + PPPOE_BYTES + PPP_BYTES, type_at(data, at + PPPOE_BYTES) in PPP_PROTOCOLS
    return at, kind in ETHERTYPES


def type_at(data: bytes, at: int) -> int:
    return int.from_bytes(data[at:at + 2], 'big')
