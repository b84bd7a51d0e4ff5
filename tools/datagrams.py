"""What a system makes of an IPv4 packet before a server has its UDP datagram: fragments are put together, what stands behind
UDP's length is cut off, and a datagram with a wrong checksum is given to nobody (RFC 791, RFC 768, RFC 1122).

It is what Linux does. A fragment that comes again is left out; one that overlaps another, or says of the packet's end what
another doesn't, ends the whole packet; and so do 30 seconds.
"""
import bisect
import struct
from collections.abc import Callable
from typing import NamedTuple

HEADER_MIN, UDP_BYTES, UDP = 20, 8, 17
MORE, OFFSET = 0x2000, 0x1fff  # of the fragment field; offsets count 8 bytes
UNIT = 8
WAIT_NANOSECONDS = 30 * 10 ** 9  # Linux's net.ipv4.ipfrag_time
OPEN_BYTES_MAX = 4 * 1024 * 1024  # Linux's net.ipv4.ipfrag_high_thresh
PART_BYTES = 512  # that a part takes besides its own
PACKET_MAX = 65535

Lost = Callable[[int, int, bytes], None]  # is told how many parts came, the record of the first, and one of them
Key = tuple[bytes, bytes, int]  # what the parts of one packet share: both addresses, the identification, the protocol


class Datagram(NamedTuple):
    source: str
    from_port: int
    destination: str
    to_port: int
    body: bytes


class Sum(NamedTuple):
    """What is to be said of a checksum, what the packet says, and what is right."""
    verdict: str
    said: int
    found: int


# NOT_MADE: the field has what a sender puts there for the card, which makes the checksum when the packet leaves.
RIGHT, ABSENT, NOT_MADE, WRONG = 'right', 'absent', 'not made', 'wrong'


def word_at(data: bytes, at: int) -> int:
    return data[at] << 8 | data[at + 1]


def text_of(address: bytes) -> str:
    return '.'.join(map(str, address))


def folded(data: bytes) -> int:
    """The one's complement sum of words of 16 bits: all that they make as one number, but for multiples of ffff."""
    total = int.from_bytes(data + bytes(len(data) % 2), 'big')
    return total % 0xffff or (0xffff if total else 0)


def header_bytes(packet: bytes) -> int:
    """How long the header of a whole IPv4 packet is, or of a part of one; 0 where it is neither."""
    if len(packet) < HEADER_MIN or packet[0] >> 4 != 4:
        return 0
    size = (packet[0] & 15) * 4
    return size if HEADER_MIN <= size <= len(packet) == word_at(packet, 2) else 0


def is_fragment(packet: bytes) -> bool:
    """Is this a part of a larger IPv4 packet: more follow, or it isn't the first?"""
    return len(packet) >= HEADER_MIN and packet[0] >> 4 == 4 and word_at(packet, 6) & (MORE | OFFSET) != 0


def udp_at(packet: bytes) -> tuple[int, int]:
    """Where a whole UDP datagram begins in a packet, and where by its length it ends; twice 0 where there is none."""
    size = header_bytes(packet)
    if not size or packet[9] != UDP or word_at(packet, 6) & (MORE | OFFSET) or len(packet) < size + UDP_BYTES:
        return 0, 0
    end = size + word_at(packet, size + 4)
    return (size, end) if size + UDP_BYTES <= end <= len(packet) else (0, 0)


def datagram_of(packet: bytes) -> Datagram | None:
    """The UDP datagram of a packet, whatever stands behind UDP's length; None where there is none."""
    size, end = udp_at(packet)
    return Datagram(text_of(packet[12:16]), word_at(packet, size), text_of(packet[16:20]), word_at(packet, size + 2),
                    packet[size + UDP_BYTES:end]) if size else None


def trimmed(packet: bytes) -> bytes:
    """A packet without what stands behind UDP's length, which the system cuts off; the packet itself where nothing does."""
    _, end = udp_at(packet)
    return with_length(packet[:end]) if 0 < end < len(packet) else packet


def with_length(packet: bytes) -> bytes:
    """A packet whose header says how long it is, that it is no fragment, and what its checksum is."""
    size = (packet[0] & 15) * 4
    head = packet[:2] + struct.pack('>H', len(packet)) + packet[4:6] + bytes((packet[6] & 0x40, 0)) + packet[8:10] + b'\0\0' + packet[12:size]
    return head[:10] + struct.pack('>H', 0xffff ^ folded(head)) + head[12:] + packet[size:]


def header_sum(packet: bytes) -> Sum:
    """What is to be said of a header's checksum. One of 0 is what some senders leave to the card."""
    size = header_bytes(packet)
    said, found = word_at(packet, 10), 0xffff ^ folded(packet[:10] + b'\0\0' + packet[12:size])
    return Sum(RIGHT if said == found else NOT_MADE if said == 0 else WRONG, said, found)


def udp_sum(packet: bytes) -> Sum:
    """What is to be said of the checksum of a datagram that is there. The sum of the pseudo-header alone, not inverted, is what
    Linux leaves to the card."""
    size = header_bytes(packet)
    length = word_at(packet, size + 4)
    udp = packet[size:size + length]
    pseudo = packet[12:20] + struct.pack('>HH', UDP, length)
    said, found = word_at(udp, 6), 0xffff ^ folded(pseudo + udp[:6] + b'\0\0' + udp[8:]) or 0xffff
    verdict = ABSENT if said == 0 else RIGHT if said == found else NOT_MADE if said == folded(pseudo) else WRONG
    return Sum(verdict, said, found)


class Parts:
    """The parts of one packet that came: since when and which record, with which bytes at which place, how many, and the one to
    show of them, which is the first one of the packet where that came."""

    def __init__(self, since: tuple[int, int]) -> None:
        self.since, self.number = since
        self.pieces, self.size, self.count = dict[int, bytes](), 0, 0
        self.end: int | None = None
        self.shown = b''
        self.begins, self.ends = list[int](), list[int]()  # of what is there without a gap, in order

    def see(self, packet: bytes, begin: int) -> None:
        self.count += 1
        if not self.shown or begin == 0:
            self.shown = packet

    def add(self, begin: int, data: bytes, is_last: bool) -> bool:
        """Whether the part fits to those that are there."""
        end, at = begin + len(data), bisect.bisect_right(self.begins, begin)
        if at and end <= self.ends[at - 1]:
            return True  # it came before
        overlaps = at and begin < self.ends[at - 1] or at < len(self.begins) and self.begins[at] < end
        is_behind = is_last and self.ends and end < self.ends[-1] or self.end is not None and end > self.end
        if not data or overlaps or is_behind or is_last and self.end not in (None, end):
            return False
        self.join(begin, end, at)
        self.pieces[begin], self.size = data, self.size + len(data) + PART_BYTES
        self.end = end if is_last else self.end
        return True

    def join(self, begin: int, end: int, at: int) -> None:
        """Adds from where to where something is there now, which stands before what is at this place of the order."""
        if at and self.ends[at - 1] == begin:
            at -= 1
            begin = self.begins.pop(at)
            self.ends.pop(at)
        if at < len(self.begins) and self.begins[at] == end:
            self.begins.pop(at)
            end = self.ends.pop(at)
        self.begins.insert(at, begin)
        self.ends.insert(at, end)

    def is_whole(self) -> bool:
        return self.end is not None and (self.begins, self.ends) == ([0], [self.end])


class Fragments:
    """The parts of packets that aren't whole yet. Of those that never become it `lost` is told how many parts
    came, the record of the first, and one of them.

    A packet that is put together stands in the record of the part that came last."""

    def __init__(self, lost: Lost = lambda count, number, packet: None) -> None:
        self.open, self.size, self.lost = dict[Key, Parts](), 0, lost

    def add(self, number: int, nanoseconds: int, packet: bytes) -> bytes | None:
        """The whole packet where this part is the last one that it wanted, else None."""
        self.expire(nanoseconds)
        size, field = header_bytes(packet), word_at(packet, 6)
        if not size:
            self.lost(1, number, packet)
            return None
        key, begin, is_last = (packet[12:20], packet[4:6], packet[9]), (field & OFFSET) * UNIT, field & MORE == 0
        parts = self.open.setdefault(key, Parts((nanoseconds, number)))
        parts.see(packet, begin)
        data, was = packet[size:], parts.size
        fits = parts.add(begin, data if is_last else data[:len(data) // UNIT * UNIT], is_last)
        self.size += parts.size - was
        if not fits or parts.end is not None and parts.end + size > PACKET_MAX:
            self.give_up(key)
        elif parts.is_whole():
            return self.whole(key)
        return None

    def whole(self, key: Key) -> bytes:
        parts = self.open.pop(key)
        self.size -= parts.size
        return with_length(parts.shown[:header_bytes(parts.shown)] + b''.join(data for _, data in sorted(parts.pieces.items())))

    def give_up(self, key: Key) -> None:
        parts = self.open.pop(key)
        self.size -= parts.size
        self.lost(parts.count, parts.number, parts.shown)

    def expire(self, nanoseconds: int) -> None:
        """Ends what waits for too long, and what is the oldest where there is too much."""
        while self.open:
            key, parts = next(iter(self.open.items()))
            if nanoseconds - parts.since <= WAIT_NANOSECONDS and self.size <= OPEN_BYTES_MAX:
                return
            self.give_up(key)

    def end(self) -> None:
        for key in list(self.open):
            self.give_up(key)
