"""The packets of captures that are written here byte by byte, and what stands before IP in a frame."""
import io
import struct
import unittest

import packets

IP = bytes.fromhex('45000014000000004011') + bytes(10)  # 20 bytes, as the header says
ETHERNET = bytes(12) + b'\x08\x00'
CLASSIC = struct.pack('<IHHiIII', 0xa1b2c3d4, 2, 4, 0, 0, 65535, packets.ETHERNET)
RECORD = struct.pack('<IIII', 1, 500_000, 34, 34) + ETHERNET + IP  # at one second and a half


def block(kind, body):
    size = struct.pack('>I', 12 + len(body))
    return struct.pack('>I', kind) + size + body + size


def read(data):
    return list(packets.packets(io.BytesIO(data)))


class Forms(unittest.TestCase):
    def test_classic(self):
        self.assertEqual(read(CLASSIC + RECORD), [(1_500_000_000, packets.ETHERNET, ETHERNET + IP, 34, 24)])
        self.assertEqual([packet.place for packet in read(CLASSIC + RECORD + RECORD)], [24, 74])

    def test_pcapng_with_the_high_byte_first(self):
        section = block(0x0a0d0d0a, struct.pack('>IHHq', 0x1a2b3c4d, 1, 0, -1))
        interface = block(1, struct.pack('>HHI', packets.RAW, 0, 0))
        packet = block(6, struct.pack('>IIIII', 0, 0, 1_500_000, 20, 20) + IP)
        self.assertEqual(read(section + interface + packet), [(1_500_000_000, packets.RAW, IP, 20, 48)])

    def test_a_file_that_is_torn_or_none(self):
        for cut in (1, 16, 49):
            with self.subTest(cut=cut), self.assertRaises(packets.Torn):
                read(CLASSIC + RECORD[:cut])
        for data, line in ((b'', 'cut at 0'), (CLASSIC[:23], 'cut at 0'), (bytes(24), 'magic'), (CLASSIC[:4] + b'\x03' + CLASSIC[5:], 'version')):
            with self.subTest(data=data), self.assertRaises(packets.NoCapture) as caught:
                read(data)
            self.assertEqual(caught.exception.line, line)


class Frames(unittest.TestCase):
    def test_what_stands_before_ip(self):
        vlan, pppoe = bytes(12) + bytes.fromhex('8100000588640000'), bytes.fromhex('110000010016')
        for link, frame in ((packets.RAW, b''), (packets.ETHERNET, ETHERNET), (packets.NULL, b'\x02\0\0\0'), (packets.LOOP, b'\0\0\0\x02'),
                            (packets.ETHERNET, bytes(12) + bytes.fromhex('88a8000181000002') + b'\x08\x00'),
                            (packets.ETHERNET, vlan[:18] + pppoe + b'\0\x21'), (packets.COOKED, bytes(14) + b'\x08\x00')):
            with self.subTest(link=link, frame=frame):
                self.assertEqual(packets.ip_of(link, frame + IP), IP)

    def test_padding_behind_the_total_length_is_left_out(self):
        self.assertEqual(packets.ip_of(packets.ETHERNET, ETHERNET + IP + bytes(26)), IP)

    def test_no_ip(self):
        self.assertIsNone(packets.ip_of(packets.ETHERNET, bytes(12) + b'\x08\x06' + IP))
        self.assertIsNone(packets.ip_of(packets.ETHERNET, ETHERNET))


if __name__ == '__main__':
    unittest.main()
