#!/usr/bin/env python3
"""shown.py WORD PROGRAM: what `state FILE CHAIN each` or `follow FILE CHAIN` says of each example, as `stored/WORD.txt` has it.

Where nothing is built the page and `trace` show that. Both files were made by another program, which was written apart from this one;
`.ci/web` compares.
"""
import glob
import os
import sys

sys.dont_write_bytecode = True

HERE = os.path.dirname(os.path.abspath(__file__))
sys.path[:0] = [os.path.join(HERE, '..', 'tools'), HERE]

import chains
import command
from player import STORED

HEAD = 'What `{} FILE CHAIN{}` says of each example, below its name: `tests/shown.py` prints it of a program, and another one made it.\n\n'


def blocks(word, program):
    """Of each example that is played its name, and what is said; None where the program doesn't know the word."""
    for path in sorted(glob.glob(os.path.join(HERE, '..', 'examples', 'scenarios', '*.toml')) + glob.glob(os.path.join(HERE, '..', 'examples', 'chains', '*.toml'))):
        if not os.path.exists(path + '.status'):
            status, written = command.call(program, word, path, chains.chain_of(command.read(path)) or '-', *STORED[word])
            yield os.path.basename(path), None if status == command.WRONG_WORDS else written.decode()


def main():
    parser = command.words(__doc__)
    parser.add_argument('word', metavar='WORD', choices=STORED)
    parser.add_argument('program', metavar='PROGRAM')
    options = parser.parse_args()
    told = dict(blocks(options.word, options.program))
    if None in told.values():
        raise command.Refusal(f'this program does not answer `{options.word}`')
    head = HEAD.format(options.word, ''.join(f' {word}' for word in STORED[options.word]))
    print(head + ''.join(f'== {name}\n{written}' for name, written in told.items()), end='')
    return 0


if __name__ == '__main__':
    command.run(main)
