"""The parts of a datagram, of the examples with what `show` says of them, whose bytes stand in docs/GUIDE.md, "Reading a datagram"."""
import os
import struct
import unittest

import command
import packets
import parts

FOLDER = os.path.join(command.TOP, 'examples', 'datagrams')
NAMES = ('advertisement', 'bubble', 'solicitation', 'origin_first', 'one_byte_short')


def example(name):
    path = os.path.join(FOLDER, f'{name}.hex')
    data = bytes.fromhex(command.read(path).strip())
    return data, parts.parts_of(data, command.read(f'{path}.stdout').splitlines())


def row(found, name):
    return next(part for part in found if part['name'] == name)


class Parts(unittest.TestCase):
    def test_each_byte_stands_in_one_part(self):
        for name in NAMES:
            with self.subTest(name=name):
                data, found = example(name)
                self.assertEqual(''.join(part['hex'] for part in found), data.hex())
                self.assertEqual([part['at'] for part in found], [sum(len(one['hex']) // 2 for one in found[:at]) for at in range(len(found))])

    def test_the_parts_of_a_part_are_its_bytes(self):
        for name in ('advertisement', 'bubble', 'solicitation'):
            for part in example(name)[1]:
                if part['parts']:
                    with self.subTest(name=name, part=part['name']):
                        self.assertEqual(''.join(hexadecimal for hexadecimal, _, _ in part['parts']), part['hex'])

    def test_an_advertisement(self):
        found = example('advertisement')[1]
        self.assertEqual([(part['at'], part['name']) for part in found],
                         [(0, 'authentication'), (13, 'origin indication'), (21, 'IPv6 header'), (29, 'source'), (45, 'destination'), (61, 'body')])
        self.assertEqual(row(found, 'authentication')['parts'][2], ['0102030405060708', 'nonce', '0102030405060708'])
        # 63bf with every bit turned is 9c40, and 39cc9bf8 is c6336407.
        self.assertEqual(row(found, 'origin indication')['parts'][1:], [['63bf', 'port, every bit turned', '40000'], ['39cc9bf8', 'address, every bit turned', '198.51.100.7']])
        self.assertEqual((row(found, 'source')['said'], row(found, 'source')['parts']), ('fe80::8000:f227:3fff:fdfe', []))

    def test_the_addresses_of_a_bubble(self):
        found = example('bubble')[1]
        self.assertEqual(row(found, 'source')['parts'], [['20010000', 'prefix', '2001:0::/32'], ['4136e378', 'server', '65.54.227.120'],
                                                         ['8000', 'flags', '8000: the cone bit is set'], ['63bf', 'port, every bit turned', '40000'],
                                                         ['3ffffdd2', 'address, every bit turned', '192.0.2.45']])
        self.assertEqual(row(found, 'destination')['parts'][2][2], '0000: the cone bit is not set')
        self.assertEqual(row(found, 'body')['said'], 'bubble, no bytes')

    def test_an_identifier_and_a_value(self):
        packet = bytes.fromhex('6000000000003bff') + bytes(32)
        data = bytes.fromhex('00010203aabb010203' + '1112131415161718' + '01') + packet
        found = parts.parts_of(data, ['auth id aabb value 010203 nonce 1112131415161718 confirmation 1', 'origin none', 'packet class 0 flow 0 next 59 hop 255 length 0',
                                      'source ::', 'destination ::', 'body bubble -'])
        self.assertEqual([one[:2] for one in found[0]['parts']], [['0001', 'kind'], ['0203', 'lengths'], ['aabb', 'identifier'], ['010203', 'value'],
                                                                  ['1112131415161718', 'nonce'], ['01', 'confirmation']])

    def test_a_fault(self):
        data, found = example('one_byte_short')
        self.assertEqual(found, [{'at': 0, 'hex': data.hex(), 'name': 'fault', 'said': 'fault length said 8 there 7 at 13',
                                  'parts': [[data[13:].hex(), 'from byte 13 on', '']]}])


class Payloads(unittest.TestCase):
    def test_of_a_datagram_what_udp_carries_and_a_packet_itself(self):
        six = bytes.fromhex('6000000000003bff') + bytes(32)
        udp = struct.pack('>HHHH', 1024, 3544, 8 + len(six), 0) + six
        four = struct.pack('>BBHHHBBH4s4s', 0x45, 0, 20 + len(udp), 0, 0, 64, 17, 0, bytes((198, 51, 100, 1)), bytes((192, 0, 2, 1))) + udp
        capture = struct.pack('<IHHiIII', 0xa1b23c4d, 2, 4, 0, 0, 65535, packets.RAW)
        for data in (four, six):
            capture += struct.pack('<IIII', 0, 0, len(data), len(data)) + data
        self.assertEqual(parts.payloads(capture), [six, six])


if __name__ == '__main__':
    unittest.main()
