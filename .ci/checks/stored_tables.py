"""The tables of pages that are made of those in tests/stored/, which the scripts of tests/ compare with what is played.

- `tests/stored/NAME.txt#N`: its table N, from 1, as it stands there. An empty line parts two.
- `tests/stored/relayed.txt#without`: what keeps a packet away, a row for each premise that is broken, with the fates each way.
- `tests/stored/orders.txt#broken`: the same between two clients, an item for each premise.
- `tests/stored/chains.txt#chains`: CHAINs for one scenario, with what is said of each and why; EMPTY stands there for no text.
"""
import re

FOLDER = 'tests/stored/'
BROKEN = re.compile(r'^without +arrives +left +fates$')
WITHOUT = re.compile(r'^(to|from) h1, without +comes +left +fates$')
EMPTY = 'the empty text'
COLUMNS = re.compile(r' {2,}')
ROW = re.compile(r'^(.+?) {2,}(?:yes|no) +\d+ +(.*)$')


def tables(text):
    """The tables of a stored file, each with its lines."""
    return [part.split('\n') for part in text.strip('\n').split('\n\n')]


def as_it_stands(text, number):
    return '```text\n' + '\n'.join(tables(text)[number - 1]) + '\n```\n'


def quoted(fates):
    return ', '.join(f'`{fate}`' for fate in fates.split()) if fates != '-' else 'nothing is delivered'


def broken(text):
    """Of each premise that is broken its words, and the fates."""
    rows = [ROW.match(line).groups() for head, *lines in tables(text) if BROKEN.match(head) for line in lines]
    return ''.join(f'{number}. {words} ({quoted(fates)})\n' for number, (words, fates) in enumerate(rows, 1))


def kept_away(text):
    """Of each premise that is broken, in the order of the stored tables, its number, its words, and the fates to the host and from it."""
    found = {}
    for head, *lines in tables(text):
        if way := WITHOUT.match(head):
            for line in lines:
                words, fates = ROW.match(line).groups()
                found.setdefault(words, {})[way[1]] = quoted(fates)
    rows = [f'| {number} | {words} | {ways.get("to", "-")} | {ways.get("from", "-")} |' for number, (words, ways) in enumerate(found.items(), 1)]
    return '\n'.join(['| | what is otherwise | to the host | to the client |', '|---|---|---|---|', *rows]) + '\n'


def chains(text):
    """Of each CHAIN what is said of it, and why."""
    head, *rows = (COLUMNS.split(line, maxsplit=2) for line in text.splitlines())
    cells = ((chain if chain == EMPTY else f'`{chain}`', f'`{said}`' if ': ' in said else said, why) for chain, said, why in rows)
    return '\n'.join(f'| {" | ".join(row)} |' for row in (head, *cells)).replace('|\n', '|\n|---|---|---|\n', 1) + '\n'


PARTS = {'without': kept_away, 'broken': broken, 'chains': chains}


def made(text, part):
    """What is made of a stored file's text, or None where it has no such part."""
    if part in PARTS:
        return PARTS[part](text)
    return as_it_stands(text, int(part)) if part.isdigit() and 1 <= int(part) <= len(tables(text)) else None
