#!/usr/bin/env python3
"""captures.py [--check] [PROGRAM]: the captures of the examples, and what an audit says of their servers.

For each scenario of `scenarios` that is played to its end: the SHA-256 of what `wire` writes, and for each of its servers
the line that `audit` writes of that capture, with its status. `explain` of the same capture must agree with it: the status,
the counts, and the first record that isn't licensed; what it says otherwise is a line of the table. `--check` prints nothing
where the table is that of `stored/captures.txt`, which another program made that was written apart from this one, and else what
differs, with status 1.
"""
import glob
import hashlib
import os
import re
import sys
import tempfile

sys.dont_write_bytecode = True

HERE = os.path.dirname(os.path.abspath(__file__))
sys.path[:0] = [os.path.join(HERE, '..', 'tools'), HERE]

import command
import tables

STORED = os.path.join(HERE, 'stored', 'captures.txt')
SCENARIOS = os.path.join(HERE, '..', 'examples', 'scenarios')
SERVER = re.compile(r'^[^#\n]*primary = "([^"]+)"[,\s]*secondary = "([^"]+)"', re.M)  # as the examples write it


UNLICENSED = re.compile(r'^(\d+) answered \S+ unlicensed', re.M)
TOTAL = re.compile(r'total packets (\d+) asked (\d+) answered (\d+) skipped \d+ dropped \d+ silent \d+ unlicensed \d+\n')


def audited(told):
    """The line of an audit that what `explain` told stands for."""
    first, total = UNLICENSED.search(told), TOTAL.search(told)
    if first:
        return f'unlicensed {first[1]}'
    packets, asked, answered = map(int, total.groups()) if total else (0, 0, 0)
    others = len(re.findall(r'^\d+ (?:skipped|other)', told, re.M))
    return f'clean packets {packets} to {asked} from {answered} skipped {others}'


def lines_of(program, path):
    """The lines of one scenario: its capture, and an audit for each server."""
    name = os.path.basename(path).removesuffix('.toml')
    status, capture = command.call(program, 'wire', path)
    if status:
        return [f'{name}: status {status}']
    lines = [f'{name}: {hashlib.sha256(capture).hexdigest()}']
    with tempfile.NamedTemporaryFile(suffix='.pcap') as file:
        file.write(capture)
        file.flush()
        for primary, secondary in SERVER.findall(command.read(path)):
            status, line = command.call(program, 'audit', primary, secondary, file.name)
            lines.append(f'{name}, {primary}: status {status}, {line.decode().strip()}')
            again, told = command.call(program, 'explain', primary, secondary, file.name)
            if (again, audited(told.decode())) != (status, line.decode().strip()):
                lines.append(f'{name}, {primary}: explain has status {again}, which stands for {audited(told.decode())}')
    return lines


def table(program):
    paths = sorted(glob.glob(os.path.join(SCENARIOS, '*.toml')))
    return '\n'.join(line for path in paths for line in lines_of(program, path)) + '\n'


def main():
    return tables.print_or_compare(__doc__, STORED, table)


if __name__ == '__main__':
    command.run(main)
