#!/usr/bin/env python3
"""nested.py [--check] [PROGRAM]: what a client makes of a NAT behind a NAT, whom it reaches, and which chains are refused.

For each pair of kinds, an inner NAT and an outer one, a scenario is made: the client behind both asks its server, and then a
datagram comes in from a stranger, one from another port of the server's address, and one from the server. The first table has
what the client makes of both NATs together, and which of them was closed to the answer of its first question. The second
one has who decides on each of the three datagrams: a NAT that is closed to it, or the client `a`.

Then each kind of NAT, alone and behind each other one, is played against each: both clients qualify, and one sends a packet to
the other. The third table has after how many deliveries it is there, `-` where it never is: `p:c` is a port restricted NAT behind
a cone one. The fourth one has the same of two clients whose NATs, of these two kinds, are behind one carrier's. The fifth
one has both in short.

`--check` prints nothing where the tables are those of `stored/nested.txt`, docs/GUIDE.md shows the first one and the last, each verdict
is the one that is right of both NATs, each packet is there when it is proved to be, each pair is as closed as the more closed one
of the two alone, and each CHAIN of the table in docs/SCENARIOS.md is played or refused as it says; else what differs, with
status 1. `--scenario INNER OUTER` prints the scenario of a pair; `./teredo pairs --scenario FROM TO` that of two clients.
"""
import os
import re
import sys

sys.dont_write_bytecode = True

HERE = os.path.dirname(os.path.abspath(__file__))
sys.path[:0] = [os.path.join(HERE, '..', 'tools'), HERE]

import command
import tables
import wanted
from scenario import Scenario

STORED = os.path.join(HERE, 'stored', 'nested.txt')
GUIDE = os.path.join(HERE, '..', 'docs', 'GUIDE.md')
TREE = os.path.join(HERE, '..', 'examples', 'chains', 'tree_of_nats.toml')
KINDS = ['cone', 'restricted', 'port', 'symmetric']  # each more closed than the one before
WAYS = [(kind,) for kind in KINDS] + [(inner, outer) for inner in KINDS for outer in KINDS]  # each NAT alone, and behind each
CLASSES = ['each cone', 'some closed', 'some symmetric']  # a closed NAT is a restricted or port restricted one
ONE_CARRIER = 'one carrier'
TRIES_MS = 8000  # after which a client gives a peer up
PLACES = {'n1': 'inner', 'n2': 'outer'}
VERDICTS = {'qualified_cone': 'cone', 'qualified_restricted': 'restricted', 'symmetric': 'symmetric'}
# The moments at which the client asks, and how many deliveries follow from what it asked.
ASKING = ((0, 2), (12000, 6), (0, 2))
STRANGERS = {'a stranger': '203.0.113.5:9', 'another port': '192.0.2.1:9', 'the server': '192.0.2.1:3544'}
REFUSED = 'nested: chain\n'
ROWS_MIN = 15  # of the table of chains


def scenario(inner, outer):
    """A client behind two NATs, or behind one where there is no outer kind, and what comes in for it then."""
    lab = Scenario(chain='n1:n2' if outer else '-')
    lab.server('s1')
    lab.client('a', lab.nat('n1', inner))
    external = 2 if outer else 1
    if outer:
        lab.nat('n2', outer)
    for ms, deliveries in ASKING:
        lab.event(f'advance {ms}', *['next'] * deliveries)
    for source in STRANGERS.values():
        lab.event(f'stranger {source} 198.51.100.{external}:1024 00', 'next')
    return lab.text()


def meeting(source, target, carrier=None):
    """Two clients, each behind the NATs of its way, or both ways behind one NAT more; one sends a packet to the other."""
    lab = Scenario()
    lab.server('s1')
    nats = [lab.way(*source), lab.way(*target)]
    if carrier:
        outer = lab.nat('carrier', carrier)
        lab.chain = ','.join(f'{nat}:{outer}' for nat in nats)
    for name, nat in zip('ab', nats):
        lab.client(name, nat)
    lab.qualify()
    lab.event('host a b 00')
    lab.settle()
    lab.event(f'advance {TRIES_MS}')
    lab.settle()
    return lab.text()


def verdict(records):
    """What the client makes of its NATs, and which was closed to the first answer."""
    found = next((VERDICTS[record[5]] for record in records if record[4] == 'a' and record[5] in VERDICTS), 'none')
    closed = next((record[4] for record in records if record[5] == 'nat_closed'), None)
    return found, closed if found != 'cone' else None


def entrances(records):
    """Who decides on what comes in from each of STRANGERS."""
    put = [at for at, record in enumerate(records) if record[5] == 'put']
    return [records[at + 1][4] for at in put]


def cell(found, closed):
    return found if closed is None else f'{found}, {PLACES[closed]}'


def first_table(played):
    text = 'inner, outer'.ljust(14) + ''.join(kind.ljust(20) for kind in KINDS).rstrip() + '\n'
    for inner in KINDS:
        cells = [cell(*verdict(played[inner, outer])) for outer in KINDS]
        text += inner.ljust(14) + ''.join(found.ljust(20) for found in cells).rstrip() + '\n'
    return text


def second_table(played):
    text = 'inner'.ljust(14) + 'outer'.ljust(14) + ''.join(name.ljust(15) for name in STRANGERS).rstrip() + '\n'
    for (inner, outer), records in played.items():
        deciding = [PLACES.get(node, node) for node in entrances(records)]
        text += inner.ljust(14) + outer.ljust(14) + ''.join(node.ljust(15) for node in deciding).rstrip() + '\n'
    return text


def arrival(records):
    """After how many deliveries the packet is there, or -."""
    deliveries = 0
    for record in records[next(at for at, record in enumerate(records) if record[3] == 'host'):]:
        deliveries += record[3].startswith('deliver:')
        if record[4] == 'b' and any(part.startswith('handed/') for part in record):
            return str(deliveries)
    return '-'


def initials(way):
    return ':'.join(kind[0] for kind in way)


def table(head, rows):
    """Cells of one width behind the first of each row."""
    return ''.join((first.ljust(12) + ''.join(cell.rjust(5) for cell in cells)).rstrip() + '\n' for first, cells in [head] + rows)


def third_table(met):
    return table(('from, to', map(initials, WAYS)), [(initials(source), [met[source, target] for target in WAYS]) for source in WAYS])


def fourth_table(beside):
    homes = [(one, other) for one in KINDS for other in KINDS]
    head = ONE_CARRIER, [f'{one[0]},{other[0]}' for one, other in homes]
    return table(head, [(carrier, [beside[carrier, one, other] for one, other in homes]) for carrier in KINDS])


def class_of(way):
    return CLASSES[2 if 'symmetric' in way else 0 if set(way) == {'cone'} else 1]


def fifth_table(met, beside):
    found = {}
    for (source, target), cell_of in met.items():
        found.setdefault((class_of(source), class_of(target)), set()).add(cell_of)
    for (carrier, one, other), cell_of in beside.items():
        found.setdefault((ONE_CARRIER, class_of((other, carrier))), set()).add(cell_of)
    text = 'from, to'.ljust(18) + ''.join(name.rjust(16) for name in CLASSES) + '\n'
    for source in CLASSES + [ONE_CARRIER]:
        text += source.ljust(18) + ''.join('/'.join(sorted(found[source, target])).rjust(16) for target in CLASSES) + '\n'
    return text


def due_verdict(way):
    """What a client that nothing disturbs makes of its NATs, where no answer is lost."""
    return {'each cone': 'cone', 'some closed': 'restricted', 'some symmetric': 'symmetric'}[class_of(way)]


def due_arrival(source, target):
    """How many deliveries a first packet takes, all that it draws delivered, where the outermost NATs differ."""
    if 'some symmetric' in (class_of(source), class_of(target)):
        return '-'
    return '1' if class_of(target) == 'each cone' else '4' if class_of(source) == 'each cone' else '5'


def unlike_proved(played, met, beside):
    """The verdicts and the packets that aren't as it is proved."""
    found = [f'{way}: {verdict(records)[0]}' for way, records in played.items() if verdict(records)[0] != due_verdict(way)]
    found += [f'{pair}: {cell_of}' for pair, cell_of in met.items() if cell_of != due_arrival(*pair)]
    return found + [f'behind one NAT, {three}: {cell_of}' for three, cell_of in beside.items() if cell_of != '-']


def as_closed_as(records):
    """What can be told of NATs from both their sides, whichever of them decides."""
    return verdict(records)[0], [node == 'a' for node in entrances(records)]


def unlike_one(program, played):
    """The pairs that aren't as closed as the more closed one of the two."""
    alone = {kind: as_closed_as(tables.records(program, scenario(kind, None))) for kind in KINDS}
    return [f'{inner} behind {outer}: {as_closed_as(records)}, and {max(inner, outer, key=KINDS.index)} alone is otherwise'
            for (inner, outer), records in played.items() if as_closed_as(records) != alone[max(inner, outer, key=KINDS.index)]]


def chains_otherwise(program):
    """The chains of docs/SCENARIOS.md that aren't played, or refused, as it says."""
    found, rows = [], list(wanted.page_chains())
    for chain, is_refused in rows:
        status, written = command.play_file(program, TREE, chain)
        if (status, written == REFUSED) != ((12, True) if is_refused else (0, False)):
            found.append(f'docs/SCENARIOS.md: CHAIN {chain!r} gives status {status}, {written[:60]!r}')
    return found if len(rows) >= ROWS_MIN else found + [f'docs/SCENARIOS.md: {len(rows)} chains, and there were {ROWS_MIN} once']


def differences(program, made, played, met, beside):
    found = unlike_proved(played, met, beside) + unlike_one(program, played) + chains_otherwise(program)
    if command.read(STORED) != made:
        found.append(f'stored/nested.txt has other tables than those played:\n{made}')
    page = re.sub('^    ', '', command.read(GUIDE), flags=re.M)
    found += [f'docs/GUIDE.md does not show this table of stored/nested.txt:\n{shown}' for shown in (first_table(played), fifth_table(met, beside))
              if shown not in page]
    return found


def options_of(words):
    parser, what = tables.words(__doc__)
    what.add_argument('--scenario', nargs=2, metavar=('INNER', 'OUTER'), choices=KINDS, help='print the scenario of a pair')
    return parser.parse_args(words)


def main():
    options = options_of(sys.argv[1:])
    if options.scenario:
        print(scenario(*options.scenario), end='')
        return 0
    program = os.path.abspath(options.program)
    played = {(inner, outer): tables.records(program, scenario(inner, outer)) for inner in KINDS for outer in KINDS}
    met = {(source, target): arrival(tables.records(program, meeting(source, target))) for source in WAYS for target in WAYS}
    beside = {(carrier, one, other): arrival(tables.records(program, meeting((one,), (other,), carrier)))
              for carrier in KINDS for one in KINDS for other in KINDS}
    made = '\n'.join([first_table(played), second_table(played), third_table(met), fourth_table(beside), fifth_table(met, beside)])
    found = differences(program, made, played, met, beside) if options.check else [made.rstrip('\n')]
    return tables.print_found(found, options.check)


command.run(main)
