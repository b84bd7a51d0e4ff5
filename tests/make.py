#!/usr/bin/env python3
"""make.py [--check]: makes the datagrams of the examples, with Python's standard library alone.

Without a word it prints each one: the example that has it, and its bytes as hexadecimal text. `--check` prints nothing
where the examples have just these bytes, and else what differs, with status 1.

The functions from `teredo` to `origin` make any datagram of Teredo's kinds. Copy one of the rows of PACKETS, change an
address, a port or a nonce in it, and play what comes out.
"""
import glob
import ipaddress
import os
import re
import struct
import sys

EXAMPLES = os.path.join(os.path.dirname(os.path.dirname(os.path.abspath(__file__))), 'examples')
ALL_ROUTERS = 'ff02::2'
BUBBLE, ICMP, UDP, DATA = 59, 58, 17, 253


def ip4(text):
    return ipaddress.IPv4Address(text).packed


def ip6(text):
    return ipaddress.IPv6Address(text).packed


def inverted(data):
    return bytes(byte ^ 255 for byte in data)


def hidden(endpoint):
    """Port and address with every bit inverted: RFC 4380, section 4."""
    ip, port = endpoint.split(':')
    return inverted(struct.pack('>H', int(port)) + ip4(ip))


def teredo(server, endpoint, cone=False):
    """A client's address: RFC 4380, section 4."""
    return str(ipaddress.IPv6Address(ip6('2001::')[:4] + ip4(server) + (b'\x80\0' if cone else b'\0\0') + hidden(endpoint)))


def link_local(endpoint, cone=False):
    return str(ipaddress.IPv6Address(ip6('fe80::')[:8] + (b'\x80\0' if cone else b'\0\0') + hidden(endpoint)))


def packet(src, dst, following, body=b'', hop=255):
    """RFC 8200, section 3."""
    return struct.pack('>IHBB', 6 << 28, len(body), following, hop) + ip6(src) + ip6(dst) + body


def checksum(src, dst, message):
    """RFC 4443, section 2.3."""
    data = ip6(src) + ip6(dst) + struct.pack('>II', len(message), ICMP) + message + b'\0' * (len(message) % 2)
    total = sum(struct.unpack(f'>{len(data) // 2}H', data))
    while total >> 16:
        total = (total & 0xffff) + (total >> 16)
    return total ^ 0xffff


def icmp(src, dst, kind, rest, wrong_by=0):
    """An ICMPv6 message in its packet; its checksum is wrong by so much."""
    found = checksum(src, dst, bytes([kind, 0, 0, 0]) + rest)
    return packet(src, dst, ICMP, struct.pack('>BBH', kind, 0, found + wrong_by) + rest)


def bubble(src, dst):
    return packet(src, dst, BUBBLE)


def echo_request(src, dst, number=1, seq=1, data=b''):
    return icmp(src, dst, 128, struct.pack('>HH', number, seq) + data)


def solicitation(endpoint, cone=False, wrong_by=0):
    """RFC 4861, section 4.1, from a client's link-local address."""
    return icmp(link_local(endpoint, cone), ALL_ROUTERS, 133, b'\0' * 4, wrong_by)


def advertisement(server, asked_by):
    """The answer of `server` to the link-local address `asked_by`: RFC 4861, sections 4.2, 4.6.2 and 4.6.4."""
    prefix = struct.pack('>BBBBIII', 3, 4, 64, 64, 2 ** 32 - 1, 2 ** 32 - 1, 0) + ip6('2001::')[:4] + ip4(server) + b'\0' * 8
    mtu = struct.pack('>BBHI', 5, 1, 0, 1280)
    return icmp(link_local(f'{server}:3544', cone=True), asked_by, 134, b'\0' * 12 + prefix + mtu)


def authentication(nonce, identifier=b''):
    """RFC 4380, section 5.1.1."""
    return bytes([0, 1, len(identifier), 0]) + identifier + bytes.fromhex(nonce) + b'\0'


def origin(endpoint):
    return b'\0\0' + hidden(endpoint)


NONCE = '0102030405060708'
HOST = '198.51.100.7:40000'
PEER = '203.0.113.9:1024'
CLIENT = teredo('192.0.2.1', HOST)
NATIVE = '2001:db8::1'
ASKS = authentication(NONCE) + solicitation(HOST)
ASKS_AS_CONE = authentication(NONCE) + solicitation(HOST, cone=True)
ASKS_WRONGLY = authentication(NONCE) + solicitation(HOST, wrong_by=1)
TO_PEER = bubble(CLIENT, teredo('192.0.2.1', PEER))

# A cone client of `client_table`, the nonce of its first question, which follows from the seed, and who sends to it.
OWN, OWN_NONCE = teredo('192.0.2.1', '198.51.100.1:1024', cone=True), '7bbe63ba71bc8c21'
# The nonce of its first test, which follows from the seed too.
TEST_NONCE = '6cf84512d1d6fbcf'
ASKING = link_local('10.0.0.2:4000', cone=True)
FRIEND, OTHER = (teredo('192.0.2.1', f'203.0.113.5:{port}') for port in (9, 11))
ANSWER = advertisement('192.0.2.1', ASKING)
SEEN_AT = origin('198.51.100.1:1024')

# The example, and the datagrams that it has, in its order.
PACKETS = {
    'scenarios/solicitation.toml': [ASKS],
    'scenarios/cone_solicitation.toml': [ASKS_AS_CONE, ASKS_AS_CONE],
    'scenarios/closed_nat.toml': [b'\0'],
    'scenarios/dropped.toml': [ASKS_WRONGLY, b''],
    'scenarios/own_address.toml': [bubble(CLIENT, teredo('192.0.2.1', '192.0.2.1:3544'))],
    'scenarios/two_servers.toml': [bubble(CLIENT, teredo('192.0.2.3', '192.0.2.3:3544'))],
    'scenarios/server_table.toml': [
        TO_PEER[:-1],
        authentication(NONCE, b'\xaa') + TO_PEER,
        packet(CLIENT, teredo('192.0.2.1', PEER), DATA, b'\x01'),
        ASKS_WRONGLY,
        ASKS,
        ASKS,
        echo_request(CLIENT, link_local('192.0.2.1:3544', cone=True)),
        ASKS,
        TO_PEER,
        bubble(NATIVE, teredo('192.0.2.3', PEER)),
        bubble(CLIENT, teredo('192.0.2.1', '10.0.0.2:4000')),
        bubble(CLIENT, teredo('192.0.2.1', '192.0.2.1:3544')),
        TO_PEER,
        bubble(CLIENT, teredo('192.0.2.3', PEER)),
        bubble(CLIENT, NATIVE),
        bubble(CLIENT, 'fe80::1'),
    ],
    'scenarios/client_table.toml': [
        b'\0',
        authentication(NONCE, b'\xaa') + bubble(FRIEND, OWN),
        authentication(NONCE)[:-1] + b'\1' + bubble(FRIEND, OWN),
        icmp(FRIEND, OWN, 128, bytes(4), wrong_by=1),
        authentication(NONCE) + SEEN_AT + ANSWER,
        authentication(OWN_NONCE) + SEEN_AT + ANSWER,
        authentication(OWN_NONCE) + ANSWER,
        authentication(OWN_NONCE) + SEEN_AT + advertisement('192.0.2.3', ASKING),
        bubble(FRIEND, OWN),
        bubble(FRIEND, OWN),
        bubble(FRIEND, FRIEND),
        bubble(OWN, OWN),
        origin('203.0.113.5:10') + bubble(FRIEND, OWN),
        origin('203.0.113.5:9') + bubble(FRIEND, OWN),
        origin('203.0.113.5:9') + bubble(FRIEND, OWN),
        packet(FRIEND, OWN, DATA, b'hello'),
        packet(FRIEND, OWN, DATA, b'hello'),
        bubble(OTHER, OWN),
        bubble(OTHER, OWN),
        bubble(FRIEND, OWN),
        packet(NATIVE, OWN, DATA, b'hello'),
        bubble('2001:db8::2', OWN),
        *[packet(NATIVE, OWN, DATA, b'hello')] * 4,
    ],
    'scenarios/bubble_to_native.toml': [bubble(NATIVE, teredo('192.0.2.1', '198.51.100.1:1024'))],
    'scenarios/borrowed_source.toml': [
        packet(source, OWN, DATA, b'hello') for source in (FRIEND, teredo('192.0.2.1', '198.51.100.2:1024', cone=True))
    ],
    'scenarios/read_test.toml': [
        packet(NATIVE, OWN, DATA, b'hello'),
        icmp(NATIVE, OWN, 129, bytes(4) + bytes.fromhex(TEST_NONCE)),
    ],
    'scenarios/trusted_relay_spoofed.toml': [packet(NATIVE, teredo('192.0.2.1', '198.51.100.1:1024'), DATA, b'hello')],
    'scenarios/random_flags.toml': [
        packet(NATIVE, teredo('192.0.2.1', f'198.51.100.{nat}:1024', cone=True), UDP, b'hello', hop=64) for nat in (1, 2)
    ],
    'scenarios/spoofed_advertisement.toml': [
        authentication(NONCE) + origin('203.0.113.66:9') + advertisement('192.0.2.1', link_local('10.0.0.2:4000', cone=True)),
    ],
    'scenarios/unserved_host.toml': [
        packet(teredo('192.0.2.1', '198.51.100.1:1024'), '2001:db8::77', DATA, b'\x04'),
    ],
    'datagrams/solicitation.hex': [ASKS],
    'datagrams/advertisement.hex': [authentication(NONCE) + origin(HOST) + advertisement('192.0.2.1', link_local(HOST))],
    'datagrams/bubble.hex': [bubble(teredo('65.54.227.120', '192.0.2.45:40000', cone=True), teredo('65.54.227.120', HOST))],
    'datagrams/origin_first.hex': [origin(HOST) + ASKS],
    'datagrams/one_byte_short.hex': [ASKS[:-1]],
}


def in_scenario(path):
    """The bytes that the strangers of a scenario send, as hexadecimal text."""
    with open(path, encoding='utf-8') as file:
        return re.findall(r'^ *"stranger \S+ \S+ (\S+)"', file.read(), flags=re.M)


def in_examples():
    found = {}
    for path in sorted(glob.glob(f'{EXAMPLES}/scenarios/*.toml')):
        found[os.path.relpath(path, EXAMPLES)] = in_scenario(path)
    for path in sorted(glob.glob(f'{EXAMPLES}/datagrams/*.hex')):
        with open(path, encoding='ascii') as file:
            found[os.path.relpath(path, EXAMPLES)] = file.read().split()
    return {name: packets for name, packets in found.items() if packets}


def main():
    made = {name: [data.hex() or '-' for data in packets] for name, packets in PACKETS.items()}
    if sys.argv[1:] not in ([], ['--check']):
        print(__doc__.strip(), file=sys.stdout if sys.argv[1:] in (['-h'], ['--help']) else sys.stderr)
        return 0 if sys.argv[1:] in (['-h'], ['--help']) else 2
    if not sys.argv[1:]:
        for name, packets in made.items():
            for text in packets:
                print(name, text)
        return 0
    found, wrong = in_examples(), 0
    for name in sorted(set(made) | set(found)):
        if made.get(name) != found.get(name):
            wrong = 1
            print(f'{name}: the example has {found.get(name)}, and make.py makes {made.get(name)}')
    return wrong


if __name__ == '__main__':
    sys.exit(main())
