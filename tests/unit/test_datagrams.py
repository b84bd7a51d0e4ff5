"""Fragments put together as RFC 791 has it, UDP datagrams in packets, and checksums by RFC 1071."""
import struct
import unittest

import datagrams

HEADER = bytes.fromhex('45000073000040004011b861c0a80001c0a800c7')  # with the right checksum b861
SECOND = 10 ** 9


def part(begin, data, is_last, identification=7):
    """A part of a UDP packet from 192.0.2.77 to 192.0.2.1; it begins at a multiple of 8."""
    field = begin // 8 | (0 if is_last else 0x2000)
    return struct.pack('>BBHHHBBH', 0x45, 0, 20 + len(data), identification, field, 64, 17, 0) + bytes((192, 0, 2, 77, 192, 0, 2, 1)) + data


def udp(body):
    return struct.pack('>HHHH', 4000, 3544, 8 + len(body), 0) + body


class Put(unittest.TestCase):
    """A datagram of 40 bytes in three parts, in one order or another."""

    def setUp(self):
        self.lost = []
        self.fragments = datagrams.Fragments(lambda count, number, packet: self.lost.append((count, number)))
        self.whole = udp(bytes(range(32)))
        self.parts = [part(0, self.whole[:16], False), part(16, self.whole[16:32], False), part(32, self.whole[32:], True)]

    def add(self, order):
        return [self.fragments.add(number, 0, self.parts[at]) for number, at in enumerate(order)]

    def check(self, packet):
        self.assertEqual(packet[20:], self.whole)
        self.assertEqual(struct.unpack('>H', packet[2:4])[0], 60)
        self.assertFalse(datagrams.is_fragment(packet))
        self.assertEqual(sum(struct.unpack('>10H', packet[:20])) % 0xffff, 0)  # the checksum of the header is right
        self.assertEqual(datagrams.datagram_of(packet), ('192.0.2.77', 4000, '192.0.2.1', 3544, bytes(range(32))))

    def test_in_each_order_the_last_part_makes_the_packet(self):
        for order in ((0, 1, 2), (0, 2, 1), (1, 0, 2), (1, 2, 0), (2, 0, 1), (2, 1, 0)):
            with self.subTest(order=order):
                *before, made = self.add(order)
                self.assertEqual(before, [None, None])
                self.check(made)
        self.assertEqual(self.lost, [])

    def test_a_part_that_comes_twice_is_left_out(self):
        *before, made = self.add((0, 0, 2, 2, 1))
        self.assertEqual(before, [None] * 4)
        self.check(made)

    def test_parts_that_overlap_end_the_packet(self):
        self.parts.append(part(8, self.whole[8:24], False))
        self.assertEqual(self.add((0, 3)), [None, None])
        self.assertEqual(self.lost, [(2, 0)])

    def test_two_ends_end_the_packet(self):
        self.parts.append(part(16, self.whole[16:24], True))
        self.assertEqual(self.add((2, 3)), [None, None])
        self.assertEqual(self.lost, [(2, 0)])

    def test_30_seconds_end_it_and_no_sooner(self):
        for waited, is_whole in ((30 * SECOND, True), (30 * SECOND + 1, False)):
            fragments = datagrams.Fragments()
            fragments.add(0, 0, self.parts[0])
            fragments.add(1, 0, self.parts[1])
            self.assertEqual(fragments.add(2, waited, self.parts[2]) is not None, is_whole)

    def test_packets_are_told_apart_by_their_identification(self):
        self.parts[1] = part(16, self.whole[16:32], False, identification=8)
        self.assertEqual(self.add((0, 1, 2)), [None] * 3)
        self.fragments.end()
        self.assertEqual(sorted(self.lost), [(1, 1), (2, 0)])


class Datagrams(unittest.TestCase):
    def test_what_stands_behind_the_length_of_udp_is_cut_off(self):
        packet = part(0, udp(b'abc') + b'more', True)
        self.assertEqual(datagrams.datagram_of(packet).body, b'abc')
        self.assertEqual(datagrams.trimmed(packet)[20:], udp(b'abc'))
        self.assertIs(datagrams.trimmed(HEADER), HEADER)

    def test_no_datagram(self):
        for packet in (b'', HEADER, part(0, udp(b'abc')[:-1], True), part(8, udp(b'abc'), True), part(0, udp(b'abc'), True)[:-1]):
            with self.subTest(packet=packet):
                self.assertIsNone(datagrams.datagram_of(packet))

    def test_the_checksum_of_a_header(self):
        packet = HEADER + bytes(0x73 - 20)
        self.assertEqual(datagrams.header_sum(packet), (datagrams.RIGHT, 0xb861, 0xb861))
        self.assertEqual(datagrams.header_sum(packet[:10] + b'\xb8\x62' + packet[12:]), (datagrams.WRONG, 0xb862, 0xb861))
        self.assertEqual(datagrams.header_sum(packet[:10] + b'\0\0' + packet[12:]), (datagrams.NOT_MADE, 0, 0xb861))

    def test_the_sum_of_rfc_1071(self):
        self.assertEqual(datagrams.folded(bytes.fromhex('0001f203f4f5f6f7')), 0xddf2)  # its section 3
        self.assertEqual(datagrams.folded(b''), 0)


if __name__ == '__main__':
    unittest.main()
