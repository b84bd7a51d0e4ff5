#!/usr/bin/env python3
"""The scenario that `gen SEED COUNT` plays, as a file: `lab` on it writes the whole report of those totals.

docs/SCENARIOS.md, "Generated scenarios", has the rules that it follows. SEED is 0 to 9,223,372,036,854,775,807, COUNT
0 to 50,000.

  generated SEED COUNT >FILE
"""
import struct
import sys

sys.dont_write_bytecode = True

import command
from scenario import Scenario

SEED_MAX, COUNT_MAX = 2 ** 63 - 1, 50_000
ROUNDS = 20
STREAM = 2 ** 64 - 1  # beside the seed, in place of a node's number
KINDS = ('cone', 'restricted', 'port', 'symmetric')


def turned(word, bits):
    return (word << bits | word >> 32 - bits) & 0xffffffff


def quarter(state, a, b, c, d):
    """RFC 8439, section 2.1."""
    for first, other, target, bits in ((a, b, d, 16), (c, d, b, 12), (a, b, d, 8), (c, d, b, 7)):
        state[first] = (state[first] + state[other]) & 0xffffffff
        state[target] = turned(state[target] ^ state[first], bits)


def block(key, number):
    """The words of a block of ChaCha20 with a counter of 64 bits and no nonce."""
    start = [0x61707865, 0x3320646e, 0x79622d32, 0x6b206574, *struct.unpack('<8I', key), number & 0xffffffff, number >> 32, 0, 0]
    state = list(start)
    for _ in range(ROUNDS // 2):
        for at in range(4):
            quarter(state, at, at + 4, at + 8, at + 12)
        for at in range(4):
            quarter(state, at, (at + 1) % 4 + 4, (at + 2) % 4 + 8, (at + 3) % 4 + 12)
    return [(one + other) & 0xffffffff for one, other in zip(state, start)]


def words(seed, number):
    """The words of a seed and a number: as key each in eight bytes, the high one first, and sixteen zero bytes."""
    key = struct.pack('>QQ', seed, number) + bytes(16)
    at = 0
    while True:
        yield from block(key, at)
        at += 1


def event(number, a, b, c):
    """Event `number` of three words."""
    kind, hexadecimal = a % 16, f'{c:08x}'
    if kind <= 5:
        return 'next'
    if kind <= 7:
        return f'deliver {b % (number + 1)}'
    if kind <= 10:
        return f'advance {b % 5000}'
    if kind <= 12:
        return f'host c{b % 8} c{c % 8} {hexadecimal}'
    if kind == 13:
        return f'host c{b % 8} h{c % 2} {hexadecimal}'
    if kind == 14:
        return f'host h{b % 2} c{c % 8} {hexadecimal}'
    return (f'restart c{c % 8}', f'restart n{c % 4}', f'forget n{c % 4} c{c % 4}',
            f'copy {c % (number + 1)} 203.0.113.5:9 198.51.100.{c % 4 + 1}:1024')[b % 4]


def scenario(seed, count):
    lab = Scenario(seed)
    servers = [lab.server(f's{number}') for number in range(2)]
    nats = [lab.nat(f'n{number}', kind) for number, kind in enumerate(KINDS)]
    for number in range(8):
        lab.client(f'c{number}', nats[number % 4], servers[number % 2])
    lab.add('relay', 'r0', at='203.0.113.9:3545', six='2001:db8::9')
    for number in range(2):
        lab.native(f'h{number}')
    drawn = words(seed, STREAM)
    for number in range(count):
        lab.event(event(number, next(drawn), next(drawn), next(drawn)))
    return lab.text()


def number_up_to(most):
    """A reader of a decimal number without leading zeros."""
    def read(text):
        if not text.isascii() or not text.isdecimal() or str(int(text)) != text or int(text) > most:
            raise ValueError(text)
        return int(text)
    read.__name__ = f'number from 0 to {most}'
    return read


def main():
    parser = command.words(__doc__)
    parser.add_argument('seed', metavar='SEED', type=number_up_to(SEED_MAX))
    parser.add_argument('count', metavar='COUNT', type=number_up_to(COUNT_MAX))
    options = parser.parse_args()
    print(scenario(options.seed, options.count), end='')
    return 0


if __name__ == '__main__':
    command.run(main)
