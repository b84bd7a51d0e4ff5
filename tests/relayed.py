#!/usr/bin/env python3
"""relayed.py [--check] [PROGRAM]: the first packet between a client and a host of the IPv6 Internet, and what keeps it away.

The host of `a` sends its first packet to `h1`, and the other way round, for each kind of client; `no-bit` is behind a cone NAT,
and doesn't try the cone phase. Then all that follows is delivered. The first table has the deliveries until the packet is there,
those after it, of an echo request's answer, the most entries that are open at one moment, and all fates: where one entry is open
at most, their order is the only one. The next two have what breaks a premise, on the way to `h1` and to `a`: whether the packet
comes, how many entries are left, and what became of it, each fate of a node once. Two more have what is none of this where the
address of `a` has the cone bit. The last one has what is sent in the name of `h1`: whether the host of `a` is handed it, and the fates.

`--check` prints nothing where the tables are those of `stored/relayed.txt` and of docs/SURE.md, the examples that this names show the
same, one entry is open at most, the packet comes in as many deliveries as it should, and not where a premise is broken; else what
differs, with status 1. `--scenario CLIENT WAY WORD` prints the scenario of a line of the first table, as `--scenario port to echo`,
`--without NUMBER WAY` that of a line of one of the next two, counted from 1, and `--lie NUMBER` that of the last one.
"""
import collections
import os
import re
import sys

sys.dont_write_bytecode = True

HERE = os.path.dirname(os.path.abspath(__file__))
sys.path[:0] = [os.path.join(HERE, '..', 'tools'), HERE]

import command
import tables
from premises import KINDS, LIES, NOT_WITH_BIT, WAYS, WITHOUT, course_scenario, lie, lines, without

STORED = os.path.join(HERE, 'stored', 'relayed.txt')
SURE = os.path.join(HERE, '..', 'docs', 'SURE.md')
GUIDE = os.path.join(HERE, '..', 'docs', 'GUIDE.md')
SCENARIOS = os.path.join(HERE, '..', 'examples', 'scenarios')
# What is sent which way, by which event, and how many deliveries follow when it is there.
SENDS = {('to', 'host'): ('to h1', 0), ('to', 'echo'): ('to h1, asking', 2), ('from', 'host'): ('from h1', 0)}
DUE = {True: 6, False: 9}  # deliveries until a packet is there, by whether the client's address has the cone bit
PACKET = 41  # the length of the packet that `host` hands in
LENGTHS = (PACKET, 40, 48, 1281)  # of those that are asked for: none of another one, and none of a test

# A record of a report, as far as it matters here: the new entries with their lengths, and those of what a host is handed.
Record = collections.namedtuple('Record', 'act node fate made handed')


def records_of(written):
    """The records of a report but for those that end others."""
    found = []
    for _, _, _, act, node, fate, *marks in map(str.split, written.splitlines()[:-1]):
        said = ' '.join(marks)
        made = [(int(number), int(length)) for number, length in re.findall(r'#(\d+)=\S*/(\d+)', said)]
        if fate != 'done' or act == 'restart':
            found.append(Record(act, node, fate, made, [int(length) for length in re.findall(r'(?:handed|late)/(\d+)', said)]))
    return found


def from_packet(records, sender):
    """Those from the latest packet on that this node's host hands in."""
    return records[max(at for at, record in enumerate(records) if record.act in ('host', 'echo', 'raw') and record.node == sender):]


def number_of(record):
    return int(record.act.removeprefix('deliver:')) if record.act.startswith('deliver:') else None


def opened(records):
    """After each record, how many entries these records made and didn't deliver."""
    entries, delivered, counts = set(), set(), []
    for record in records:
        delivered.add(number_of(record))
        entries.update(number for number, _ in record.made)
        counts.append(len(entries - delivered))
    return counts


def arrivals(records, node):
    """The places of the records that bring this node a packet of the lengths that are asked for."""
    lengths = {number: length for record in records for number, length in record.made}
    return [at for at, record in enumerate(records) if record.node == node and (
        set(LENGTHS) & set(record.handed) or record.fate in ('kept', 'echoed') and lengths.get(number_of(record)) in LENGTHS)]


def fates_of(records):
    return [record.fate for record in records]


def once(records):
    """The fate of the packet, and of what is delivered or falls due then, each of a node once."""
    later = [record for record in records[1:] if record.act == 'tick' or number_of(record) is not None]
    return [fate for _, fate in dict.fromkeys((record.node, record.fate) for record in records[:1] + later)]


def has_bit(kind):
    return kind == 'cone'


def counts_of(records, way):
    """The deliveries until the packet is there, those after it, and the most entries that are open at one moment."""
    until = arrivals(records, WAYS[way][1])[0]
    return until, len(records) - 1 - until, max(opened(records))


def first_table(played):
    text = 'client'.ljust(12) + 'sends'.ljust(14) + ''.join(head.rjust(6) for head in ('until', 'after', 'open')) + '  fates\n'
    for (kind, way, word), records in played.items():
        cells = ''.join(str(cell).rjust(6) for cell in counts_of(records, way))
        text += kind.ljust(12) + SENDS[way, word][0].ljust(14) + cells + f'  {" ".join(fates_of(records))}\n'
    return text


def without_table(head, way, names, broken):
    text = head.ljust(50) + 'comes'.ljust(7) + 'left'.rjust(5) + '  fates\n'
    for name, records in zip(names, broken):
        comes = 'yes' if arrivals(records, WAYS[way][1]) else 'no'
        text += name.ljust(50) + comes.ljust(7) + str(opened(records)[-1]).rjust(5) + f'  {" ".join(once(records))}\n'
    return text


def without_tables(broken, harmless):
    names = [name for name, _, play in WITHOUT if play in NOT_WITH_BIT]
    return [without_table(f'{way} h1, without', way, [line[0] for line in lines(way)], broken[way]) for way in WAYS] + [
        without_table(f'{way} h1, with the cone bit', way, names, harmless[way]) for way in WAYS]


def last_table(told):
    text = 'in the name of h1'.ljust(50) + 'handed  fates\n'
    for (name, _, _), records in zip(LIES, told):
        text += name.ljust(50) + ('yes' if any(record.handed for record in records) else 'no').ljust(8) + ' '.join(fates_of(records)) + '\n'
    return text


def deliveries_of(records):
    return [record for record in records if number_of(record) is not None]


def from_first(records, act):
    return records[[record.act for record in records].index(act):]


def of_example(name):
    return records_of(command.read(os.path.join(SCENARIOS, f'{name}.toml.stdout')))


def in_page():
    """What docs/SURE.md has: the rows of its table of courses, and of that of what is otherwise."""
    section = command.read(SURE).split('\n## The first packet and the IPv6 Internet\n')[1].split('\n## ')[0]
    courses = re.findall(r'^\| (to|from) it \| (without|with) the bit \| (\d+) \| ([^|]*) \| `(\w+)` \|$', section, flags=re.M)
    otherwise = re.findall(r'^\| (\d+) \| [^|]* \| ([^|]*) \| ([^|]*) \|$', section, flags=re.M)
    return courses, [(int(number), *(re.findall('`(.*?)`', cell) for cell in cells)) for number, *cells in otherwise]


def unlike_due(played):
    """What isn't as docs/SURE.md has it: how many deliveries, in one order alone, and the fates."""
    found, courses = [], in_page()[0]
    of_page = {(way, bit == 'with'): (int(count), re.findall('`(.*?)`', fates), name) for way, bit, count, fates, name in courses}
    for (kind, way, word), records in played.items():
        due = DUE[has_bit(kind)], SENDS[way, word][1], 1
        count, fates, name = of_page.get((way, has_bit(kind)), (0, [], ''))
        found += [] if counts_of(records, way) == due else [f'{kind}, {way}, {word}: {counts_of(records, way)}, not {due}']
        if word == 'host' and (count, fates) != (due[0], fates_of(records[1:])):
            found.append(f'docs/SURE.md has {count} {fates} of {kind}, {way} h1, and played are {fates_of(records[1:])}')
        if word == 'host' and fates_of(deliveries_of(from_first(of_example(name), 'host'))[:count]) != fates:
            found.append(f'{name} shows other fates than {fates}')
    return found if len(courses) == len(of_page) == 4 else found + [f'docs/SURE.md has the courses {sorted(of_page)}']


def unlike_without(broken, harmless):
    rows = [(number, *(once(broken[way][number - 1]) if number <= len(broken[way]) else [] for way in WAYS))
            for number in range(1, len(WITHOUT) + 1)]
    found = [f'docs/SURE.md has {row}' for row in in_page()[1] if row not in rows]
    found += [f'docs/SURE.md lacks {row}' for row in rows if row not in in_page()[1]]
    found += [f'without: {name}, {way} h1: it comes' for way, (_, target) in WAYS.items()
              for (name, _, _), records in zip(WITHOUT, broken[way]) if arrivals(records, target)]
    return found + [f'{way} h1, with the cone bit: {fates_of(records)}' for way, (_, target) in WAYS.items()
                    for records in harmless[way] if arrivals(records, target) != [DUE[True]]]


def unlike_examples(broken, told):
    """The examples that docs/GUIDE.md and docs/SURE.md name for a break or a lie, and that show something else."""
    shown = {'read_test': ('stranger', told[1]), 'trusted_relay_spoofed': ('stranger', told[3]), 'restarted_relay': ('restart', broken['to'][5])}
    found = []
    for name, (act, records) in shown.items():
        fates, of_file = fates_of(deliveries_of(records)), fates_of(deliveries_of(from_first(of_example(name), act)))
        found += [] if of_file[:len(fates)] == fates else [f'{name} shows {of_file}, not {fates}']
    return found


def unlike_guide():
    """What docs/GUIDE.md has otherwise: how many deliveries there are."""
    said = f'{DUE[False]} deliveries bring the first packet there, {DUE[True]} where the client\'s address has the cone bit'
    return [] if said in command.read(GUIDE) else [f'docs/GUIDE.md does not say: {said}']


def differences(made, played, broken, harmless, told):
    found = unlike_due(played) + unlike_without(broken, harmless) + unlike_examples(broken, told) + unlike_guide()
    return found if command.read(STORED) == made else found + [f'stored/relayed.txt has other tables than those played:\n{made}']


def options_of(words):
    parser, what = tables.words(__doc__)
    what.add_argument('--scenario', nargs=3, metavar=('CLIENT', 'WAY', 'WORD'), help='print the scenario of a line of the first table')
    what.add_argument('--without', nargs=2, metavar=('NUMBER', 'WAY'), help='print that of a line of one of the next two')
    what.add_argument('--lie', metavar='NUMBER', type=int, choices=range(1, len(LIES) + 1), help='print that of a line of the last one')
    options = parser.parse_args(words)
    if options.scenario and (options.scenario[0] not in KINDS or tuple(options.scenario[1:]) not in SENDS):
        parser.error(f'CLIENT is one of {", ".join(KINDS)}, and WAY WORD one of {", ".join(map(" ".join, SENDS))}')
    if options.without and options.without not in [[str(number), way] for way in WAYS for number in range(1, len(lines(way)) + 1)]:
        parser.error(f'NUMBER is 1 to {len(WITHOUT)}, or to {len(lines("to"))} where WAY is to; else it is from')
    return options


def asked(options):
    """The scenario that is to be printed, or none."""
    if options.scenario:
        return course_scenario(*options.scenario)
    if options.without:
        return without(WITHOUT[int(options.without[0]) - 1], options.without[1])
    return lie(LIES[options.lie - 1]) if options.lie else None


def main():
    options = options_of(sys.argv[1:])
    text = asked(options)
    if text:
        print(text, end='')
        return 0
    program = os.path.abspath(options.program)

    def play(scenario):
        return records_of(tables.report(program, scenario))

    played = {(kind, way, word): from_packet(play(course_scenario(kind, way, word)), WAYS[way][0]) for way, word in SENDS for kind in KINDS}
    broken = {way: [from_packet(play(without(line, way)), WAYS[way][0]) for line in lines(way)] for way in WAYS}
    harmless = {way: [from_packet(play(without(line, way, 'cone')), WAYS[way][0]) for line in WITHOUT if line[2] in NOT_WITH_BIT] for way in WAYS}
    told = [deliveries_of(from_first(play(lie(line)), 'stranger')) for line in LIES]
    made = '\n'.join([first_table(played), *without_tables(broken, harmless), last_table(told)])
    found = differences(made, played, broken, harmless, told) if options.check else [made.rstrip('\n')]
    return tables.print_found(found, options.check)


if __name__ == '__main__':
    command.run(main)
