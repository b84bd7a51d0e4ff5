#!/usr/bin/env python3
"""vectors.py [--check] [PROGRAM]: what a Teredo server answers, as vectors that other implementations' tests can read.

`stored/vectors.json` has a datagram for each row of the server's table, and one for each fault of a payload and of an ICMPv6
message: who sent it and to which of the server's two addresses, its bytes, the fate, the first fault, and what the server
sends. The datagrams are made by `make.py`; fates, faults and outputs are those of another program, written apart from this
one. `--check` prints nothing where PROGRAM, by `lab`, `wire` and `explain`, answers as the file says, and else what
differs, with status 1. Without it the file's text is printed, as PROGRAM answers.
"""
import io
import json
import os
import re
import struct
import sys
import tempfile

sys.dont_write_bytecode = True

HERE = os.path.dirname(os.path.abspath(__file__))
sys.path[:0] = [os.path.join(HERE, '..', 'tools'), HERE]

import command
import make
import packets
import tables

STORED = os.path.join(HERE, 'stored', 'vectors.json')
PRIMARY, SECONDARY = '192.0.2.1', '192.0.2.2'
UDP_BYTES = 8
OWN_LINK_LOCAL = make.link_local(f'{PRIMARY}:3544', cone=True)
SCENARIO = '''seed = 1
events = ["stranger {source} {to}:3544 {payload}", "deliver 0"]
[[server]]
name = "s1"
primary = "{primary}"
secondary = "{secondary}"
'''
QUESTION = make.solicitation(make.HOST)


def message(body, hop=255, src=make.link_local(make.HOST), dst=make.ALL_ROUTERS):
    """A message with a right checksum, whatever it is."""
    found = make.checksum(src, dst, body[:2] + b'\0\0' + body[4:])
    return make.packet(src, dst, make.ICMP, body[:2] + struct.pack('>H', found) + body[4:], hop)


# By name: who sent it, to which side, and its bytes. The names of faults are those of docs/RULES.md.
ROWS = [
    ('a solicitation', make.HOST, 'primary', make.ASKS),
    ('a solicitation to the secondary address', make.HOST, 'secondary', make.ASKS),
    ('a solicitation with the cone bit', make.HOST, 'primary', make.ASKS_AS_CONE),
    ('a solicitation with the cone bit to the secondary address', make.HOST, 'secondary', make.ASKS_AS_CONE),
    ('a solicitation without an authentication', make.HOST, 'primary', QUESTION),
    ('a bubble to a client of this server', make.HOST, 'primary', make.TO_PEER),
    ('a bubble to a client of this server, by the secondary address', make.HOST, 'secondary', make.TO_PEER),
    ('a bubble to a client of another server', make.HOST, 'primary', make.bubble(make.CLIENT, make.teredo('192.0.2.3', make.PEER))),
    ('a bubble of a native host to a client of this server', make.HOST, 'primary', make.bubble(make.NATIVE, make.teredo(PRIMARY, make.PEER))),
    ('an echo request to a native host', make.HOST, 'primary', make.echo_request(make.CLIENT, make.NATIVE, data=bytes(8))),
    ('a solicitation without its last byte', make.HOST, 'primary', make.ASKS[:-1]),
    ('an authentication is cut', make.HOST, 'primary', make.authentication(make.NONCE)[:-1]),
    ('an origin before the authentication', make.HOST, 'primary', make.origin(make.HOST) + make.ASKS),
    ('bytes of no known kind', make.HOST, 'primary', b'\7'),
    ('fewer bytes than a header', make.HOST, 'primary', make.TO_PEER[:39]),
    ('bytes behind the packet', make.HOST, 'primary', make.TO_PEER + b'\0'),
    ('a client identifier', make.HOST, 'primary', make.authentication(make.NONCE, b'\xaa') + make.TO_PEER),
    ('a packet of 1281 bytes', make.HOST, 'primary', make.echo_request(make.CLIENT, make.NATIVE, data=bytes(1233))),
    ('neither a bubble nor ICMPv6', make.HOST, 'primary', make.packet(make.CLIENT, make.teredo(PRIMARY, make.PEER), make.DATA, b'\1')),
    ('a wrong checksum', make.HOST, 'primary', make.ASKS_WRONGLY),
    ('a solicitation with hop limit 64', make.HOST, 'primary', message(b'\x85' + bytes(7), hop=64)),
    ('a solicitation with a code', make.HOST, 'primary', message(b'\x85\1' + bytes(6))),
    ('a message of three bytes', make.HOST, 'primary', make.packet(make.link_local(make.HOST), make.ALL_ROUTERS, make.ICMP, bytes(3))),
    ('an option of length 0', make.HOST, 'primary', message(b'\x85' + bytes(7) + b'\1\0' + bytes(6))),
    ('an option that is cut', make.HOST, 'primary', message(b'\x85' + bytes(7) + b'\1\2' + bytes(6))),
    ('a private source', '10.0.0.2:4000', 'primary', make.ASKS),
    ('port 0', '198.51.100.7:0', 'primary', make.ASKS),
    ('from the server itself', f'{SECONDARY}:3544', 'primary', make.ASKS),
    ('an echo request to the server', make.HOST, 'primary', make.echo_request(make.CLIENT, OWN_LINK_LOCAL)),
    ('a Teredo source that embeds another endpoint', '198.51.100.7:40001', 'primary', make.TO_PEER),
    ('a source outside Teredo, to a client of another server', make.HOST, 'primary', make.bubble(make.NATIVE, make.teredo('192.0.2.3', make.PEER))),
    ('to a private endpoint', make.HOST, 'primary', make.bubble(make.CLIENT, make.teredo(PRIMARY, '10.0.0.2:4000'))),
    ('to the server in a Teredo address', make.HOST, 'primary', make.bubble(make.CLIENT, make.teredo(PRIMARY, f'{PRIMARY}:3544'))),
    ('to a link-local address', make.HOST, 'primary', make.bubble(make.CLIENT, 'fe80::1')),
]


def vector(program, name, source, side, payload):
    """What the program makes of one datagram."""
    to = PRIMARY if side == 'primary' else SECONDARY
    with tempfile.TemporaryDirectory() as folder:
        scenario, capture = os.path.join(folder, 'one.toml'), os.path.join(folder, 'one.pcap')
        command.write(scenario, SCENARIO.format(source=source, to=to, payload=payload.hex(), primary=PRIMARY, secondary=SECONDARY))
        report = command.call(program, 'lab', scenario)[1].decode()
        written = command.call(program, 'wire', scenario)[1]
        with open(capture, 'wb') as file:
            file.write(written)
        told = command.call(program, 'explain', PRIMARY, SECONDARY, capture)[1].decode().splitlines()
    fate = re.search(r'^1 .* s1 (\S+)', report, re.M)[1]
    explained = re.search(rf'^0 asked {side} \S+ {fate}(?: (?!=)(.*?))?(?: =(\S+))?$', told[0]) if told else None
    sent = [packet.data for packet in packets.packets(io.BytesIO(written))][1:]
    made = {'name': name, 'source': source, 'side': side, 'payload': payload.hex(), 'fate': fate}
    if explained and explained[1]:
        made['fault'] = explained[1]
    if sent and explained and explained[2].startswith('six/'):
        made['ipv6'] = sent[0].hex()
    elif sent and explained:
        ends = re.match(r'(\S+)>(\S+)/\d+', explained[2])
        made['sends'] = {'source': ends[1], 'destination': ends[2], 'payload': sent[0][packets.IPV4_HEADER_MIN + UDP_BYTES:].hex()}
    return made


def table(program):
    rows = [vector(program, *row) for row in ROWS]
    head = {'server': {'primary': PRIMARY, 'secondary': SECONDARY, 'port': 3544}, 'standard': 'RFC 4380, section 5.3', 'vectors': rows}
    return json.dumps(head, indent=1) + '\n'


def main():
    return tables.print_or_compare(__doc__, STORED, table)


if __name__ == '__main__':
    command.run(main)
