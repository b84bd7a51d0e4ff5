#!/usr/bin/env python3
"""Who can reach whom: every pair of NAT kinds, as `reach` says it and as `lab` plays it.

For each pair of NAT kinds, and for a host of the IPv6 Internet behind a relay, a scenario is made in which both sides
qualify. The table has what `reach` says then: within how many deliveries the first packet is there, or the word why it
never is. Then the one sends the other two packets, and every datagram is delivered at once and in order: that takes just
as many, or what differs is printed, with status 1. `--no-cone` does all that with clients that leave out the cone phase (RFC 5991,
section 3.2), as those in use do: no address has the cone bit then. `--check` prints only what differs from the tables of
`tests/stored/pairs.txt`, of which docs/GUIDE.md shows the first. `--scenario FROM TO` prints a pair's scenario instead: each
is a kind, `native`, or NATs behind NATs from the inner one outward, as `port:cone`; then it says its chain. The scenarios are written
with `tools/scenario.py`, with which any others can be.
"""
import argparse
import os
import re
import sys

sys.dont_write_bytecode = True

import command
import matrix
import tables
from scenario import Scenario

STORED = os.path.join(command.TOP, 'tests', 'stored', 'pairs.txt')
GUIDE = os.path.join(command.TOP, 'docs', 'GUIDE.md')
KINDS = ['cone', 'restricted', 'port', 'symmetric']
NATIVE = 'native'
WAY_MAX = 3  # NATs that a client is behind
NO_CONE = 'no cone'  # at the head of the table of clients without the cone phase


def scenario(source, target, one_nat=False, packets=2, no_cone=False):
    """The text of a pair: `a` behind the NATs of a way or native, `b` likewise, maybe both behind one NAT."""
    lab = Scenario()
    lab.server('s1')
    if NATIVE in (source, target):
        lab.relay('r1')
    nat = None
    for name, way in (('a', source), ('b', target)):
        if way == NATIVE:
            lab.native(name)
            continue
        nat = nat if nat and one_nat else lab.way(*way.split(':'))
        lab.client(name, nat, **({'cone_try': False} if no_cone else {}))
    lab.qualify()
    for _ in range(packets):
        lab.event('host a b 00')
        lab.settle()
    return lab.text()


def verdict(records):
    """How many deliveries it takes until a packet is there, with + where it is the second one; else -."""
    begins = [at for at, record in enumerate(records) if record[3] == 'host']
    for sign, at in zip(['', '+'], begins):
        deliveries = 0
        for record in records[at + 1:]:
            if not record[3].startswith('deliver:'):
                break
            deliveries += 1
            if record[4] == 'b' and (record[5] == 'kept' or any(part.startswith(('handed/', 'late/')) for part in record)):
                return f'{sign}{deliveries}'
    return '-'


def word_of(program, pair, no_cone):
    """What `reach` says of the first packet: the number of a word, or the word that says why it never comes."""
    status, lines = matrix.answer(program, scenario(*pair, packets=0, no_cone=no_cone))
    if status:
        raise command.Refusal(f'reach: status {status}: {" ".join(lines)}')
    return matrix.pairs(lines)['a', 'b'].removeprefix('within ')


def row(first, cells):
    return (first.ljust(12) + ''.join(cell.rjust(12) for cell in cells)).rstrip() + '\n'


def table(program, no_cone):
    """The table, and what is played otherwise."""
    ends = KINDS + [NATIVE]
    pairs = [(source, target) for source in ends for target in ends if (source, target) != (NATIVE, NATIVE)] + [(kind, kind, True) for kind in KINDS]
    words = {pair: word_of(program, pair, no_cone) for pair in pairs}
    text = row(NO_CONE if no_cone else 'from, to', ends)
    for source in ends:
        text += row(source, [words.get((source, target), '') for target in ends])
    return text + row('one NAT', [words[kind, kind, True] for kind in KINDS]), otherwise(program, words, no_cone)


def otherwise(program, words, no_cone):
    """The pairs of which a packet isn't there after just so many deliveries, or is though it can't."""
    played = {pair: verdict(tables.records(program, scenario(*pair, no_cone=no_cone))) for pair in words}
    return [f'{" ".join(map(str, pair))}: reach says {word}, and played is {played[pair]}' for pair, word in words.items()
            if played[pair] != ('-' if word in matrix.SHUT else word)]


def table_or_stored(options):
    """The table as the program has it, and what is wrong; where nothing is built the stored one, to be looked at."""
    try:
        return table(os.path.abspath(options.program), options.no_cone)
    except command.Refusal as fault:
        if fault.status != command.NOT_BUILT:
            raise
        print('pairs.py: nothing was played: this is the table that each build is compared with', file=sys.stderr)
        return stored()[options.no_cone], []


def stored():
    """Both tables that are stored, the first one with the cone phase."""
    tables_of, _, without = command.read(STORED).partition('\n\n')
    return tables_of + '\n', without


def differences(program):
    """What differs from the tables that are stored, and from the one that docs/GUIDE.md shows; and what is played otherwise."""
    found = []
    for no_cone, kept in enumerate(stored()):
        made, wrong = table(program, bool(no_cone))
        found += wrong + ([f'tests/stored/pairs.txt has another table than the one made:\n{made}'] if kept != made else [])
    if stored()[0] not in re.sub('^    ', '', command.read(GUIDE), flags=re.M):
        found.append('docs/GUIDE.md does not show the table')
    return found


def read_end(text):
    """What one of the two stands behind, as the words have it."""
    kinds = text.split(':')
    if text != NATIVE and (len(kinds) > WAY_MAX or not set(kinds) <= set(KINDS)):
        raise argparse.ArgumentTypeError(f'{text!r} is none of {", ".join(KINDS + [NATIVE])}, and no two or three kinds of NAT with colons between')
    return text


def options_of(words):
    parser, what = tables.words(__doc__)
    what.add_argument('--scenario', nargs=2, metavar=('FROM', 'TO'), type=read_end, help='print the scenario of a pair')
    parser.add_argument('--no-cone', action='store_true', help='of clients that leave out the cone phase')
    options = parser.parse_args(words)
    if options.scenario and NATIVE in options.scenario and ':' in ''.join(options.scenario):
        parser.error('of NATs behind NATs no native host is played')
    return options


def main():
    options = options_of(sys.argv[1:])
    if options.scenario:
        print(scenario(*options.scenario, no_cone=options.no_cone), end='')
        return 0
    if options.check:
        return tables.print_found(differences(os.path.abspath(options.program)), True)
    made, wrong = table_or_stored(options)
    return tables.print_found(wrong + [made.rstrip('\n')], bool(wrong))


if __name__ == '__main__':
    command.run(main)
