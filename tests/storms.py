#!/usr/bin/env python3
"""storms.py [--check] [PROGRAM]: how many deliveries follow from one entry of the wire, as `lab` plays it.

For each line of the table of weights a scenario is made, in which one such entry alone is undelivered and no packet waits;
then `settle` delivers it and all that comes of it. The table says what the entry weighs, which is how many deliveries may
follow, itself counted, and how many do. `--check` prints nothing where the table is that of `stored/storms.txt`, which
docs/SURE.md shows too, and no more follow than may; else what differs, with status 1. `--scenario NUMBER` prints the
scenario of a line, counted from 1, instead.
"""
import os
import re
import sys

sys.dont_write_bytecode = True

HERE = os.path.dirname(os.path.abspath(__file__))
sys.path[:0] = [os.path.join(HERE, '..', 'tools'), HERE]

import command
import make
import tables
from scenario import Scenario

STORED = os.path.join(HERE, 'stored', 'storms.txt')
SURE = os.path.join(HERE, '..', 'docs', 'SURE.md')

STRANGER = '203.0.113.99:40000'
SERVER, OTHER_SERVER = '192.0.2.1', '192.0.2.3'
MAPPED = '198.51.100.1:1024'
RELAY = '203.0.113.9:3545'
HOST = '2001:db8::1'
CLIENT = make.teredo(SERVER, MAPPED)


def lab():
    """Two servers, a client that has qualified behind a restricted NAT, a relay and two hosts of the IPv6 Internet."""
    made = Scenario()
    made.server('s1')
    made.client('a', made.nat('n1', 'restricted'))
    made.server('s2')
    made.relay('r1')
    made.native('h1')
    made.native('h2')
    made.qualify()
    return made


def put(source, target, data):
    return f'stranger {source} {target} {data.hex()}'


def served(ip):
    return f'{ip}:3544'


def suspicious(made):
    """A packet in the name of a host that the client doesn't trust; the NAT lets in the server's address, any port of it."""
    made.event(put(f'{SERVER}:9', MAPPED, make.packet(HOST, CLIENT, make.DATA, b'hello')))


# Each puts the entry onto the wire that its line of LINES names.

def to_server_dropped(made):
    made.event(put(STRANGER, served(SERVER), b'\0'))


def to_server_for_server(made):
    made.event(put(STRANGER, served(SERVER), make.bubble(make.teredo(SERVER, STRANGER), make.teredo(OTHER_SERVER, served(OTHER_SERVER)))))


def test(made):
    suspicious(made)
    made.event('next')


def indirect_for_server(made):
    made.event(put(served(OTHER_SERVER), served(SERVER), make.bubble(HOST, CLIENT)), 'next')


def indirect(made):
    made.event(put(STRANGER, served(SERVER), make.bubble(HOST, CLIENT)), 'next')


def to_relay(made):
    made.event('host h1 a 00', 'settle')
    made.event(put(MAPPED, RELAY, make.echo_request(CLIENT, HOST)))


def reply_to_relay(made):
    test(made)
    made.event('next', 'next')


def packet_to_relay(made):
    made.event('host h1 a 00')


def request_from_teredo(made):
    test(made)
    made.event('next')


def request_from_host(made):
    made.event('echo h1 h2 1')


def to_nobody(made):
    made.event(put(STRANGER, STRANGER, b'\0'))


# the entry, its weight, what puts it onto the wire
LINES = [
    ('datagram to a server, which drops it', 1, to_server_dropped),
    ('to a server, which sends it on to a server', 2, to_server_for_server),
    ('to a server, which gives a test to a host', 7, test),
    ('indirect bubble, its origin a server', 3, indirect_for_server),
    ('indirect bubble of anybody else', 2, indirect),
    ('to a client, packet from outside Teredo', 8, suspicious),
    ('to a relay, packet from a Teredo address', 7, to_relay),
    ('echo reply for a relay', 5, reply_to_relay),
    ('any other packet for a relay', 12, packet_to_relay),
    ('echo request from a Teredo address', 6, request_from_teredo),
    ('echo request from another address', 2, request_from_host),
    ('anything else', 1, to_nobody),
]


def scenario(line):
    made = lab()
    line[2](made)
    made.event('settle')
    return made.text()


def deliveries(program, text):
    """How many deliveries the last `settle` has."""
    records = tables.records(program, text)
    last = records[-1][2]
    return sum(record[2] == last and record[3].startswith('deliver:') for record in records)


def table(program):
    text = 'entry'.ljust(44) + 'weight'.rjust(8) + 'deliveries'.rjust(12) + '\n'
    for line in LINES:
        text += line[0].ljust(44) + str(line[1]).rjust(8) + str(deliveries(program, scenario(line))).rjust(12) + '\n'
    return text


def differences(made):
    """What differs from the table that is stored, and from the one that docs/SURE.md shows; where more follow than may."""
    found = []
    if command.read(STORED) != made:
        found.append(f'stored/storms.txt has another table than the one played:\n{made}')
    if made not in re.sub('^    ', '', command.read(SURE), flags=re.M):
        found.append('docs/SURE.md does not show the table of stored/storms.txt')
    for row in made.splitlines()[1:]:
        weight, follow = map(int, row.split()[-2:])
        if follow > weight:
            found.append(f'{row}: more follow than may')
    return found


def options_of(words):
    parser, what = tables.words(__doc__)
    what.add_argument('--scenario', metavar='NUMBER', type=int, choices=range(1, len(LINES) + 1), help='print the scenario of a line')
    return parser.parse_args(words)


def main():
    options = options_of(sys.argv[1:])
    if options.scenario:
        print(scenario(LINES[options.scenario - 1]), end='')
        return 0
    made = table(os.path.abspath(options.program))
    found = differences(made) if options.check else [made.rstrip('\n')]
    return tables.print_found(found, options.check)


command.run(main)
