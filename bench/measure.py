#!/usr/bin/env python3
"""measure.py [PROGRAM] [--beside OTHER] [--rounds N] [--only PART..]: how fast the program is on this machine, as Markdown.

Makes what the program is given in a temporary folder, runs it N times, 5 where N isn't given, and prints the tables of
docs/PERFORMANCE.md: wall time and processor time, each the least and the median, and the most memory, which is looked at in
runs of its own. PROGRAM is the built program where none is named; `./teredo build` builds it. Other work on the machine makes
other figures: the first line has its load.

  clients  `lab`, `wire` and `reach` on 64 clients with 50,000 events
  full     `lab` and `wire` on a client that refreshes until the wire is full
  gen      `gen 7 50000`
  nested   `nested` on 64 NATs, 63 of them in chains of three, and `lab` on the same without chains
  audit    `audit` of three captures of 96 MiB
  explain  `explain` of the same
  serve    `serve` on 127.0.0.1 and 127.0.0.2, port 3544, beside a loop in Python that sends back what it gets: answers a
           second and processor time a datagram. Two processes ask, one each address, 32 unanswered at a time each. They
           are Python too, so that the answers a second may be theirs; the processor time isn't
  growth   processor time over work where there is more and more of one thing, to the least of its rows

With `--beside OTHER` each is run in turns with another program, as a build of another commit; its figures follow, the ratios
of the least times, and whether the outputs are equal. A program may be named in quotes with words to begin with. `--scenario`
prints a part's scenario, to look at it, or to count what becomes of it with other tools.
"""
import argparse
import os
import platform
import re
import statistics
import struct
import sys
import tempfile
import time

sys.dont_write_bytecode = True

HERE = os.path.dirname(os.path.abspath(__file__))
sys.path[:0] = [os.path.join(HERE, '..', 'tools'), os.path.join(HERE, '..', 'tests'), HERE]

import command
import echoes
import growth
import loads
import runs

PROGRAM = command.BUILT
AUDITED = ('192.0.2.1', '192.0.2.2')
FULL = 8  # the status of a wire that is full
MIB = 1 << 20


# Each part's rows: a name, the words, the status, and what counts the work in an output.

def clients(folder):
    path = runs.put(folder, 'clients.toml', loads.clients())
    yield '`lab`, 64 clients, 50,000 events', ['lab', path], 0, records
    yield '`wire`, the same', ['wire', path], 0, packets
    yield '`reach`, the same', ['reach', path, '-'], 0, pairs


def full(folder):
    path = runs.put(folder, 'full.toml', loads.refreshes(loads.WIRE_MAX + 1))
    yield '`lab`, a full wire', ['lab', path], FULL, records_until_full
    yield '`wire`, the same', ['wire', path], FULL, packets


def gen(_):
    yield '`gen 7 50000`', ['gen', '7', '50000'], 0, records


def nested(folder):
    text, chain = loads.chained()
    path = runs.put(folder, 'chained.toml', text)
    yield '`nested`, 64 clients, 50,000 events', ['nested', path, chain], 0, records
    yield '`lab`, the same without chains', ['lab', path], 0, records


def captures(folder):
    """Three of 96 MiB, each with its name, in one file after the other."""
    for name, capture in (('empty records', loads.empty_records), ('one datagram again and again', loads.same_datagrams),
                          ('smallest datagrams, an answer each', loads.answered_datagrams)):
        yield name, runs.put(folder, 'audited.pcap', capture())


def audit(folder):
    for name, path in captures(folder):
        yield f'`audit`, 96 MiB: {name}', ['audit', *AUDITED, path], 0, audited


def explain(folder):
    for name, path in captures(folder):
        yield f'`explain`, 96 MiB: {name}', ['explain', *AUDITED, path], 0, explained


PARTS = {'clients': clients, 'full': full, 'gen': gen, 'nested': nested, 'audit': audit, 'explain': explain}
SCENARIOS = {'clients': loads.clients, 'full': lambda: loads.refreshes(loads.WIRE_MAX + 1), 'nested': lambda: loads.chained()[0]}


def records(output):
    """Of a report, or of totals."""
    return f'{int(re.search(rb"total records ([0-9]+) ", output)[1]):,} records'


def records_until_full(output):
    return f'{len(output.splitlines()) - 1:,} records'


def packets(capture):
    place, count = len(loads.CAPTURE_HEAD), 0
    while place < len(capture):
        length, = struct.unpack_from('>I', capture, place + 8)
        place, count = place + 16 + length, count + 1
    return f'{count:,} packets'


def pairs(output):
    """Of the last line of `reach`."""
    return f'{int(re.search(rb"total pairs ([0-9]+) ", output)[1]):,} pairs'


def audited(line):
    """Of `clean packets N to ..`."""
    return f'{int(line.split()[2]):,} packets'


def explained(output):
    """Of the last line, `total packets N asked ..`."""
    return f'{int(output[output.rindex(b"total packets "):].split()[2]):,} packets'


# Tables in Markdown; each row is printed as soon as it is there.

def print_table(head, rows):
    print('| ' + ' | '.join(head) + ' |\n' + '|---' * len(head) + '|', flush=True)
    for row in rows:
        print('| ' + ' | '.join(row) + ' |', flush=True)
    print()


PLAYED = ['wall time: least, median', 'processor time', 'memory']
RATIOS = ['ratio: wall, processor', 'outputs']


def print_played(programs, parts, rounds, folder):
    head = ['what', 'how much', *PLAYED] + [f'beside it: {PLAYED[0]}', *PLAYED[1:], *RATIOS] * (len(programs) - 1)
    print_table(head, (played_row(programs, row, rounds, folder) for part in parts for row in PARTS[part](folder)))


def played_row(programs, row, rounds, folder):
    name, words, status, count = row
    ours, *others = runs.in_turns(programs, words, status, rounds, folder)
    output = runs.output_of(ours)
    cells = [name, count(output), *taken(ours)]
    for other in others:
        ratios = f'{ratio(ours.walls, other.walls)}, {ratio(ours.processors, other.processors)}'
        cells += [*taken(other), ratios, 'equal' if runs.output_of(other) == output else 'NOT equal']
    return cells


def taken(measured):
    memory = f'{measured.memory / MIB:.1f} MiB' if measured.memory else 'not told'
    return [f'{least_and_median(measured.walls)} s', f'{least_and_median(measured.processors)} s', memory]


def least_and_median(numbers, digits=3):
    return f'{min(numbers):.{digits}f}, {statistics.median(numbers):.{digits}f}'


def ratio(ours, others):
    return f'{min(ours) / min(others):.2f}' if min(others) else ''


def print_served(programs, rounds):
    reason = echoes.why_not()
    if reason:
        print(f'`serve`: skipped: {reason}\n')
        return
    names = ['`serve`', '`serve` of the other program'][:len(programs)] + ['a loop in Python']
    measured = echoes.in_turns([echoes.program(words) for words in programs] + [echoes.loop], rounds)
    print_table(['what', 'answers a second: most, median', 'processor time a datagram: least, median', 'of the first, to this'],
                (served_row(name, found, measured[0]) for name, found in zip(names, measured)))


def served_row(name, found, ours):
    rates, seconds = found
    microseconds = least_and_median([one * 1e6 for one in seconds], 2)
    return [name, f'{max(rates):,.0f}, {statistics.median(rates):,.0f}', f'{microseconds} µs', ratio(ours[1], seconds)]


def print_growth(programs, rounds, folder):
    starts = growth.starts(programs, folder)
    told = ', '.join(f'{start * 1e3:.1f} ms' for start in starts)
    print(f'The least processor time of `lab`, without what its start takes ({told}: a run on no nodes and no events). A row with '
          'a part of the work has as many times the runs.\n')
    for unit, rows in growth.groups():
        print_table(['what', unit] + ['time', 'over work', 'to the least'] * len(programs),
                    growth.cells(programs, starts, rows, rounds, folder))


def machine(rounds):
    """What the figures are of, in a line."""
    release = platform.release().split('-')[0]
    return (f'{time.strftime("%Y-%m-%d")}, {platform.system()} {release}, {processor()}{os.cpu_count()} processors, Python '
            f'{platform.python_version()}, load {os.getloadavg()[0]:.1f} at the start; rounds: {rounds}.\n')


def processor():
    """The name of the processor, where the system says it."""
    try:
        with open('/proc/cpuinfo', encoding='utf-8') as file:
            return next((line.partition(': ')[2].strip() + ', ' for line in file if line.startswith('model name')), '')
    except OSError:
        return ''


def rounds_of(word):
    if not word.isdecimal() or int(word) == 0:
        raise argparse.ArgumentTypeError(f'{word} is no number from 1 on')
    return int(word)


def options_of(words):
    parser = command.words(__doc__)
    parser.add_argument('program', metavar='PROGRAM', nargs='?', default=PROGRAM)
    parser.add_argument('--beside', metavar='OTHER', help='another program, run in turns with PROGRAM')
    parser.add_argument('--rounds', metavar='N', type=rounds_of, default=5, help='how often each is run')
    names = [*PARTS, 'serve', 'growth']
    parser.add_argument('--only', metavar='PART', nargs='+', choices=names, default=names,
                        help='these parts alone; PROGRAM stands before it')
    parser.add_argument('--scenario', choices=SCENARIOS, help='print the scenario of a part, and play nothing')
    return parser.parse_args(words)


def main():
    options = options_of(sys.argv[1:])
    if options.scenario:
        print(SCENARIOS[options.scenario](), end='')
        return 0
    programs = [runs.program_of(text) for text in (options.program, options.beside) if text is not None]
    print(machine(options.rounds))
    parts = [part for part in PARTS if part in options.only]
    with tempfile.TemporaryDirectory() as folder:
        if parts:
            print_played(programs, parts, options.rounds, folder)
        if 'serve' in options.only:
            print_served(programs, options.rounds)
        if 'growth' in options.only:
            print_growth(programs, options.rounds, folder)
    return 0


if __name__ == '__main__':
    command.run(main)
