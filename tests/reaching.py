#!/usr/bin/env python3
"""reaching.py [--check] [PROGRAM]: who reaches whom at the end of each example.

For each scenario of `scenarios`, with no NAT behind another one, and of `chains`, with the chain that it says: the last line
that `reach` writes, with its status where that isn't 0. Above it, of the scenarios that WHOLE names, with the chains there, each
word. `--check` prints nothing where the table is that of `stored/reaching.txt`, which another program made that was written apart from this
one, and else what differs, with status 1.
"""
import glob
import os
import sys

sys.dont_write_bytecode = True

HERE = os.path.dirname(os.path.abspath(__file__))
sys.path[:0] = [os.path.join(HERE, '..', 'tools'), HERE]

import chains
import command
import tables

STORED = os.path.join(HERE, 'stored', 'reaching.txt')
# Of which all lines are told, and with which chains.
WHOLE = {'who_reaches_whom': ('n1:n3', '-', 'n3:n1')}


def lines_of(program, path):
    """The lines of one scenario, with each chain by which it is told."""
    name, said = os.path.basename(path).removesuffix('.toml'), chains.chain_of(command.read(path)) or '-'
    for chain in WHOLE.get(name, (said,)):
        status, written = command.call(program, 'reach', path, chain)
        lines = written.decode().splitlines()
        yield from lines[:-1] if name in WHOLE else ()
        yield f'{name} {chain}: {f"status {status}, " if status else ""}{lines[-1] if lines else "nothing"}'


def table(program):
    paths = [path for folder in ('scenarios', 'chains') for path in sorted(glob.glob(os.path.join(HERE, '..', 'examples', folder, '*.toml')))]
    return '\n'.join(line for path in paths for line in lines_of(program, path)) + '\n'


def main():
    return tables.print_or_compare(__doc__, STORED, table)


if __name__ == '__main__':
    command.run(main)
