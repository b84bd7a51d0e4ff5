#!/usr/bin/env python3
"""faults.py [--check] [PROGRAM]: which of two faults in one text is named.

Each fault is put into a scenario that is right otherwise, alone and together with each other one that leaves it in the
text. The table says which is named. `--check` prints nothing where the table is that of `stored/faults.txt`, and else what
differs, with status 1.
"""
import os
import sys

sys.dont_write_bytecode = True

HERE = os.path.dirname(os.path.abspath(__file__))
sys.path[:0] = [os.path.join(HERE, '..', 'tools'), HERE]

import command
import tables

STORED = os.path.join(HERE, 'stored', 'faults.txt')
GOOD = {
    'first': '',
    'seed': 'seed = 1\n',
    'events': 'events = ["next"]\n',
    'server': '[[server]]\nname = "s1"\nprimary = "192.0.2.1"\nsecondary = "192.0.2.2"\n',
    'nat': '[[nat]]\nname = "n1"\nkind = "cone"\nexternal = "198.51.100.1"\nidle = 60000\n',
    'client': '[[client]]\nname = "a"\nnat = "n1"\ninside = "10.0.0.2:4000"\nserver = "s1"\n',
    'relay': '[[relay]]\nname = "r1"\nat = "203.0.113.9:3545"\nsix = "2001:db8::9"\n',
    'native': '[[native]]\nname = "h"\nsix = "2001:db8::1"\nrelay = "r1"\n',
    'last': '',
}
# What is wrong, and the parts of the text that say so.
FAULTS = [
    ('too long', {'last': '#' * 4_194_304}),
    ('no TOML', {'last': '}\n'}),
    ('unknown key', {'first': 'zzz = 1\n'}),
    ('no seed', {'seed': ''}),
    ('seed of another kind', {'seed': 'seed = true\n'}),
    ('seed out of range', {'seed': 'seed = -1\n'}),
    ('server no list', {'server': '[server]\n'}),
    ('unknown key of a server', {'server': GOOD['server'] + 'zz = 1\n'}),
    ('bad name of a server', {'server': GOOD['server'].replace('s1', 'S1')}),
    ('addresses of a server alike', {'server': GOOD['server'].replace('192.0.2.2', '192.0.2.1')}),
    ('kind of NAT', {'nat': GOOD['nat'].replace('cone', 'con')}),
    ('address that a server has', {'nat': GOOD['nat'].replace('198.51.100.1', '192.0.2.1')}),
    ('unknown NAT of a client', {'client': GOOD['client'].replace('n1', 'n2')}),
    ('port 0 of a relay', {'relay': GOOD['relay'].replace('3545', '0')}),
    ('Teredo address of a native host', {'native': GOOD['native'].replace('2001:db8::1', '2001::1')}),
    ('no events', {'events': ''}),
    ('events of another kind', {'events': 'events = [5]\n'}),
    ('bad event', {'events': 'events = ["next", "deliver x"]\n'}),
]


def text_of(*faults):
    parts = dict(GOOD)
    for _, changes in faults:
        parts.update(changes)
    return ''.join(parts.values())


def line_of(program, text):
    status, written = command.play(program, text)
    if status != 3:
        raise command.Refusal(f'status {status} for\n{text[:2000]}')
    return written.strip()


def table(program):
    lines = [f'{fault[0]}: {line_of(program, text_of(fault))}' for fault in FAULTS]
    for at, one in enumerate(FAULTS):
        for two in FAULTS[at + 1:]:
            if not set(one[1]) & set(two[1]):
                lines.append(f'{one[0]}, {two[0]}: {line_of(program, text_of(one, two))}')
    return '\n'.join(lines) + '\n'


def main():
    return tables.print_or_compare(__doc__, STORED, table)


if __name__ == '__main__':
    command.run(main)
