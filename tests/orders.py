#!/usr/bin/env python3
"""orders.py [--check] [PROGRAM]: what becomes of a first packet, in each order of the deliveries that it draws.

The host of `a` sends its first packet to `b`, for each pair of kinds of clients; `no-bit` is behind a cone NAT, and doesn't try
the cone phase. Then all that follows is delivered, each entry once, in every order in which it can be. The first table has
how many orders there are, the least and the most deliveries, and in how many orders the packet is handed over by which
rule, or never. The second one has the fates of the orders, and when the straight bubble of `a` is delivered in them. The third
one has what breaks a premise: whether the packet arrives, how many entries are left, and each fate once. The last two are the
first two for clients behind two and three NATs: `no-bit:port` is a client of that kind whose NAT is behind a port restricted one.

`--check` prints nothing where the tables are those of `stored/orders.txt`, the fates those of the table in docs/SURE.md and of the
examples that it names, each order takes one of the courses that are proved, each of these comes, and a packet is handed over
just where it should be; else what differs, with status 1. `--scenario FROM TO` prints the scenario of a pair, as
`--scenario no-bit:port cone`, and `--without NUMBER` that of a line of the third table, counted from 1.
"""
import argparse
import collections
import os
import re
import sys

sys.dont_write_bytecode = True

HERE = os.path.dirname(os.path.abspath(__file__))
sys.path[:0] = [os.path.join(HERE, '..', 'tools'), HERE]

import command
import make
import tables
from scenario import Scenario

STORED = os.path.join(HERE, 'stored', 'orders.txt')
SURE = os.path.join(HERE, '..', 'docs', 'SURE.md')
COURSES = os.path.join(HERE, '..', 'crates', 'theory_first_packets', 'specs', 'Courses.antt')
SCENARIOS = os.path.join(HERE, '..', 'examples', 'scenarios')
# The kind of the NAT of each kind of client, and keys of its own.
KINDS = {'cone': ('cone', {}), 'no-bit': ('cone', {'cone_try': False}), 'restricted': ('restricted', {}), 'port': ('port', {})}
# Clients behind one NAT, two and three, each kind at each place of a way; they are paired where one is behind several.
ONE = ['cone', 'no-bit', 'port']
TWO = ['cone:cone', 'no-bit:cone', 'cone:port', 'port:cone', 'restricted:port']
THREE = ['cone:cone:cone', 'no-bit:cone:cone', 'cone:port:restricted', 'port:restricted:cone']
WAYS = [(source, target) for source in ONE + TWO + THREE for target in ONE + TWO + THREE
        if (source in ONE) != (target in ONE) or source in TWO and target in TWO]
NATS_MAX = 3  # on a way
PLACES = ['first', 'second', 'third', 'fourth', 'last', 'not sent']
NOT_SENT = PLACES.index('not sent')
SERVER = '192.0.2.1'
PACKET = 'host a b 00'

# A record of a report, as far as it matters here; `made` has the number of each new entry, and where it goes.
Record = collections.namedtuple('Record', 'act node fate made handed')


def lab(source='port', target='port', one_nat=False):
    """Both clients, which have qualified, each behind the NATs of its way."""
    made = Scenario()
    made.server('s1')
    nat = None
    for name, way in (('a', source), ('b', target)):
        kind, *outer = way.split(':')
        nat_kind, keys = KINDS[kind]
        nat = nat if nat and one_nat else made.way(nat_kind, *outer)
        made.client(name, nat, **keys)
    made.qualify()
    return made


def play(program, text):
    """The records from the last packet on that the host of `a` hands in."""
    return from_packet(tables.report(program, text))


def from_packet(written, first=False):
    """The same of a report, or from the first such packet on."""
    records = []
    for _, _, _, act, node, fate, *marks in map(str.split, written.splitlines()[:-1]):
        made = [(int(number), target) for number, target in re.findall(r'#(\d+)=[^> ]*>(\S+)/', ' '.join(marks))]
        if act not in ('settle', 'next'):  # which end what they deliver
            records.append(Record(act, node, fate, made, any(mark.startswith('handed/') for mark in marks)))
    at = [at for at, record in enumerate(records) if (record.act, record.node) == ('host', 'a')]
    return records[at[0 if first else -1]:]


def number_of(record):
    return int(record.act.removeprefix('deliver:'))


def undelivered(records):
    """What these records made, and didn't deliver, in the order of the numbers."""
    delivered = {number_of(record) for record in records if record.act.startswith('deliver:')}
    return [number for record in records for number, _ in record.made if number not in delivered]


def pair_scenario(source, target, front=()):
    made = lab(source, target)
    made.event(PACKET, *(f'deliver {number}' for number in front))
    made.settle()
    return made.text()


def orders(program, source, target):
    """Every order: the record of the packet, and the deliveries. Each play is one order, since all is delivered that is left."""
    fronts = [[]]
    while fronts:
        front = fronts.pop()
        order = play(program, pair_scenario(source, target, front))
        yield order
        numbers = [number_of(record) for record in order[1:]]
        for place in range(len(front), len(numbers)):
            others = set(undelivered(order[:place + 1])) - {numbers[place]}
            fronts += [numbers[:place] + [other] for other in others]


def arrival(order):
    """The fate of the delivery that hands the packet to the host of `b`, or None."""
    return next((record.fate for record in order[1:] if record.node == 'b' and record.handed), None)


def sequence(order):
    """When the straight bubble is delivered, and the fates of all deliveries."""
    straight = [number for number, target in order[0].made if order[0].fate == 'queued' and not target.endswith(':3544')]
    numbers = [number_of(record) for record in order[1:]]
    return numbers.index(straight[0]) if straight else NOT_SENT, ' '.join(record.fate for record in order[1:])


# Each plays the end of a scenario in which a premise doesn't hold.

def listed_by_sender(made):
    made.event(PACKET, PACKET)


def listed_by_receiver(made):
    made.event('fault 0', 'host b a 00', PACKET, 'deliver 21', 'deliver 22', 'deliver 23')


def listed_for_stranger(made):
    asking, asked = '198.51.100.1:1024', '198.51.100.2:1024'
    bubble = make.bubble(make.teredo(SERVER, asking), make.teredo(SERVER, asked))
    made.event(f'stranger {asking} {SERVER}:3544 {bubble.hex()}', 'settle', PACKET, 'deliver 24', 'deliver 25', 'deliver 23')


def fill(made, name):
    made.event(*(f'host {name} 2001:db8::{number:x} 00' for number in range(256)))


def no_room_at_sender(made):
    fill(made, 'a')
    made.event(PACKET)


def no_room_at_receiver(made):
    fill(made, 'b')
    made.event(PACKET, 'deliver 276', 'deliver 277', 'deliver 278')


def failed_send(made):
    made.event('fault 1', PACKET, 'settle')


def lost(made):
    made.event(PACKET, 'deliver 20')


def waited(made):
    made.event(PACKET, 'advance 8000', 'settle')


def waited_midway(made):
    made.event(PACKET, 'next', 'next', 'next', 'advance 30000', 'settle')


def one_nat(made):
    made.event(PACKET, 'settle')


# what breaks a premise, in the order of docs/SURE.md, and its scenario
WITHOUT = [
    ('a lists b: it has just tried', listed_by_sender),
    ('b lists a: it has just tried, in vain', listed_by_receiver),
    ('b lists a: a stranger had asked it', listed_for_stranger),
    ('a lists 256 others', no_room_at_sender),
    ('b lists 256 others', no_room_at_receiver),
    ('the bubble to the server fails', failed_send),
    ('the bubble to the server is lost', lost),
    ('8 seconds pass', waited),
    ('30 seconds pass after three deliveries', waited_midway),
    ('both are behind one NAT', one_nat),
]


def without(line):
    made = lab(one_nat=line[1] is one_nat)
    line[1](made)
    return made.text()


def has_bit(way):
    """Whether a client behind these NATs gets an address with the cone bit."""
    return set(way.split(':')) == {'cone'}


def proved():
    """The courses of a first packet as they are defined: the fates by whether the sender, and the receiver, has the cone bit."""
    found = {}
    for source, target, body in re.findall(r'^courses (\w+) (\w+) =(.*?)(?=^\S|\Z)', command.read(COURSES), flags=re.M | re.S):
        names = [course.split(' ∷ ') for course in re.findall(r'\(([\w ∷]+) ∷ \[\]\)', body)]
        fates = [' '.join(re.sub(r'(?<!^)(?=[A-Z])', '_', name).lower() for name in course) for course in names]
        found.update({(bit == 'true', target == 'true'): fates for bit in (['true', 'false'] if source == 'from_cone' else [source])})
    return found


def first_table(played, width=12):
    text = 'from'.ljust(width) + 'to'.ljust(width) + ''.join(head.rjust(8) for head in ('orders', 'least', 'most', 'rule1', 'rule3', 'never')) + '\n'
    for (source, target), found in played.items():
        lengths, rules = [len(order) - 1 for order in found], [arrival(order) for order in found]
        cells = [len(found), min(lengths), max(lengths), *(rules.count(rule) for rule in ('rule1', 'rule3', None))]
        text += source.ljust(width) + target.ljust(width) + ''.join(str(cell).rjust(8) for cell in cells) + '\n'
    return text


def second_table(played):
    counted = collections.Counter(sequence(order) for found in played.values() for order in found)
    text = 'bubble'.ljust(12) + 'orders'.rjust(8) + '  fates\n'
    for (place, fates), count in sorted(counted.items()):
        text += PLACES[place].ljust(12) + str(count).rjust(8) + f'  {fates}\n'
    return text


def third_table(played):
    text = 'without'.ljust(40) + 'arrives   left  fates\n'
    for (premise, _), order in zip(WITHOUT, played):
        fates = ' '.join(dict.fromkeys(record.fate for record in order if record.act.startswith('deliver:'))) or '-'
        text += premise.ljust(40) + ('yes' if arrival(order) else 'no').ljust(7) + str(len(undelivered(order))).rjust(7) + f'  {fates}\n'
    return text


def in_page():
    """What docs/SURE.md has: each row of its table with its example, how many orders there are, and what breaks a premise."""
    section = command.read(SURE).split('\n## The first packet\n')[1].split('\n## ')[0]
    rows = re.findall(r"^\| \d \| (?:comes (\w+)[^|]*|isn't sent[^|]*) \|[^|]*\| ([^|]*) \| `(\w+)` \|$", section, flags=re.M)
    sequences = [(PLACES.index(place or 'not sent'), ' '.join(re.findall('`(.*?)`', fates)), name) for place, fates, name in rows]
    orders_said = tuple(int(re.search(rf'(\d+) {words}', section)[1]) for words in ('in all', 'along ways'))
    return sequences, orders_said, len(re.findall(r'^\d+\. ', section, flags=re.M))


def of_example(name, length):
    """The sequence of an example's first packet, which has so many deliveries."""
    records = from_packet(command.read(os.path.join(SCENARIOS, f'{name}.toml.stdout')), first=True)
    deliveries = [record for record in records if record.act.startswith('deliver:')]
    return sequence(records[:1] + deliveries[:length])


def courses_otherwise(played):
    """What isn't as it is proved: an order that takes no course, that leaves something or doesn't hand the packet over."""
    found, courses, taken = [], proved(), set()
    for (source, target), orders_of in played.items():
        due = courses[has_bit(source), has_bit(target)]
        found += [f'{source} to {target}: {sequence(order)}' for order in orders_of
                  if sequence(order)[1] not in due or undelivered(order) or not arrival(order)]
        taken.update(sequence(order)[1] for order in orders_of)
    return found + [f'no order takes the course {fates}' for due in courses.values() for fates in due if fates not in taken]


def differences(made, played, along, broken):
    found = courses_otherwise(played) + courses_otherwise(along)
    if command.read(STORED) != made:
        found.append(f'stored/orders.txt has other tables than those played:\n{made}')
    rows, orders_said, broken_said = in_page()
    of_page = sorted((place, fates) for place, fates, _ in rows), orders_said, broken_said
    counts = tuple(sum(map(len, of.values())) for of in (played, along))
    for of in (played, along):
        sequences = sorted({sequence(order) for (_, target), orders_of in of.items() if not has_bit(target) for order in orders_of})
        if of_page != (sequences, counts, len(WITHOUT)):
            found.append(f'docs/SURE.md has {of_page}, and played are {sequences, counts, len(WITHOUT)}')
    found += [f'{name} shows {of_example(name, fates.count(" ") + 1)}, not {place, fates}' for place, fates, name in rows
              if of_example(name, fates.count(' ') + 1) != (place, fates)]
    found += [f'without: {premise}: it arrives' for (premise, _), order in zip(WITHOUT, broken) if arrival(order)]
    return found


def read_way(text):
    """A way as the words have it."""
    kind, *outer = text.split(':')
    if kind not in KINDS or set(outer) - set(KINDS) | {'no-bit'} & set(outer) or len(outer) >= NATS_MAX:
        raise argparse.ArgumentTypeError(f'{text!r} is none of {", ".join(KINDS)} with up to {NATS_MAX - 1} kinds of further NATs, as no-bit:port')
    return text


def options_of(words):
    parser, what = tables.words(__doc__)
    what.add_argument('--scenario', nargs=2, metavar=('FROM', 'TO'), type=read_way, help='print the scenario of a pair')
    what.add_argument('--without', metavar='NUMBER', type=int, choices=range(1, len(WITHOUT) + 1), help='print that of a line of the third table')
    return parser.parse_args(words)


def main():
    options = options_of(sys.argv[1:])
    if options.scenario or options.without:
        print(pair_scenario(*options.scenario) if options.scenario else without(WITHOUT[options.without - 1]), end='')
        return 0
    program = os.path.abspath(options.program)
    played = {(source, target): list(orders(program, source, target)) for source in KINDS for target in KINDS}
    broken = [play(program, without(line)) for line in WITHOUT]
    along = {pair: list(orders(program, *pair)) for pair in WAYS}
    made = '\n'.join([first_table(played), second_table(played), third_table(broken), first_table(along, 22), second_table(along)])
    found = differences(made, played, along, broken) if options.check else [made.rstrip('\n')]
    return tables.print_found(found, options.check)


if __name__ == '__main__':
    command.run(main)
