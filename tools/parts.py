"""The bytes of a datagram in parts, with what `show` says of each: the authentication, the origin, the header, both addresses, the body.

Where a part begins follows from what `show` tells: it reads the bytes, and nothing here does. A Teredo address is taken apart, and
the port and address that are hidden in it stand turned back beside their bytes (RFC 4380, sections 4 and 5.1.1).
"""
from __future__ import annotations

import io
import re
from typing import Any

import datagrams
import packets

Part = dict[str, Any]  # where it begins, its bytes, what it is called, what `show` says, and the parts that it has itself
HEADER, ADDRESSES = 40, ((8, 'source'), (24, 'destination'))  # of IPv6: its bytes, and where the addresses stand in it (RFC 8200, section 3)
ORIGIN = 8
AUTH = re.compile(r'id (\S+) value (\S+) nonce (\S+) confirmation (\d+)')
TEREDO = re.compile(r'server (\S+) flags (\S+) mapped (\S+):(\d+)')
FAULT = re.compile(r'.* at (\d+)')
CONE = 0x8000
TURNED = 'every bit turned'


def payloads(capture: bytes) -> list[bytes]:
    """What each record of a scenario's capture carries: that of a datagram, or an IPv6 packet itself."""
    found = []
    for packet in packets.packets(io.BytesIO(capture)):
        datagram = datagrams.datagram_of(packet.data)
        found.append(datagram.body if datagram else packet.data)
    return found


def part(at: int, data: bytes, name: str, said: str, parts: list[list[str]] | None = None) -> Part:
    return {'at': at, 'hex': data.hex(), 'name': name, 'said': said, 'parts': parts or []}


def parts_of(data: bytes, lines: list[str]) -> list[Part]:
    """The parts of these bytes by the lines of `show`, in order; all of them as one where the first line is a fault."""
    told = [line.partition(' ') for line in lines]
    said = {word: rest for word, _, rest in told if word != 'teredo'}
    if 'packet' not in said:
        fault = FAULT.fullmatch(lines[0]) if lines else None
        return [part(0, data, 'fault', lines[0] if lines else 'nothing is said', [[data[int(fault[1]):].hex(), f'from byte {fault[1]} on', '']] if fault else None)]
    begin = len(data) - HEADER - int(said['packet'].rpartition(' ')[2])
    front = begin - (0 if said['origin'] == 'none' else ORIGIN)
    found = [] if said['auth'] == 'none' else [part(0, data[:front], 'authentication', said['auth'], parts_of_auth(data[:front], said['auth']))]
    if front < begin:
        found.append(part(front, data[front:begin], 'origin indication', said['origin'], parts_of_origin(data[front:begin], said['origin'])))
    found.append(part(begin, data[begin:begin + ADDRESSES[0][0]], 'IPv6 header', said['packet']))
    for at, name in ADDRESSES:
        address = data[begin + at:begin + at + 16]
        behind = told[[word for word, _, _ in told].index(name) + 1]
        found.append(part(begin + at, address, name, said[name], parts_of_teredo(address, behind[2]) if behind[0] == 'teredo' else None))
    kind, _, _ = said['body'].partition(' ')
    return found + [part(begin + HEADER, data[begin + HEADER:], 'body', kind if data[begin + HEADER:] else f'{kind}, no bytes')]


def parts_of_auth(data: bytes, said: str) -> list[list[str]]:
    """The parts of an authentication: kind, two lengths, identifier, value, nonce, confirmation."""
    found = AUTH.fullmatch(said)
    if not found:
        return []
    rows, at = [], 4
    for word, name in ((found[1], 'identifier'), (found[2], 'value')):
        size = 0 if word == '-' else len(word) // 2
        rows += [[data[at:at + size].hex(), name, '']] if size else []
        at += size
    return [[data[:2].hex(), 'kind', 'authentication'], [data[2:4].hex(), 'lengths', f'identifier {data[2]}, value {data[3]}'], *rows,
            [data[at:-1].hex(), 'nonce', found[3]], [data[-1:].hex(), 'confirmation', found[4]]]


def parts_of_origin(data: bytes, said: str) -> list[list[str]]:
    address, _, port = said.rpartition(':')
    return [[data[:2].hex(), 'kind', 'origin'], [data[2:4].hex(), f'port, {TURNED}', port], [data[4:].hex(), f'address, {TURNED}', address]]


def parts_of_teredo(address: bytes, said: str) -> list[list[str]]:
    """The parts of a Teredo address: prefix, server, flags, and the endpoint that its NAT shows, turned back."""
    found = TEREDO.fullmatch(said)
    if not found:
        return []
    cone = 'the cone bit is set' if int(found[2], 16) & CONE else 'the cone bit is not set'
    return [[address[:4].hex(), 'prefix', '2001:0::/32'], [address[4:8].hex(), 'server', found[1]], [address[8:10].hex(), 'flags', f'{found[2]}: {cone}'],
            [address[10:12].hex(), f'port, {TURNED}', found[4]], [address[12:].hex(), f'address, {TURNED}', found[3]]]
