"""The tables of docs/REACH.md, made of the definitions that decide: their lines in their order, each with its word.

docs/parts/reach.txt has each condition in words, by the file of specs/ in which it stands. A condition without words is a fault.
"""
import os
import re

SPECS, SAID = 'crates/theory_reaching/specs', 'docs/parts/reach.txt'
# The lines of a table stand in its file in the order in which they are tried; behind them is the word where none holds.
LINE = re.compile(r'(?:^    |∷ |\+\+ )\(([^,\n]*), word\.(\w+)\)', re.M)
LAST = re.compile(r'= first_line \(.*\) word\.(\w+)$', re.M)
TEXT = re.compile(r'^reach_word word\.(\w+) = codes "(.*)"$', re.M)
COUNT = re.compile(r'^n == \d+$')


def said(text, table):
    """What docs/parts/reach.txt has of a table: the words of each condition."""
    part = text.partition(f'\n[{table}]\n')[2].partition('\n[')[0]
    return dict(line.split(' | ') for line in part.splitlines() if line)


def rows(spec, texts, words):
    """The rows of a table; those that only count something are one."""
    found = []
    for condition, word in LINE.findall(spec):
        condition = COUNT.sub('n', condition)
        if found and found[-1][0] == condition:
            found[-1][2] = texts[word]
        else:
            found.append([condition, texts[word], None])
    for condition, first, last in found:
        yield words.pop(condition, f'({condition} has no words)'), f'`{first}` to `{last}`' if last else f'`{first}`'
    yield 'else', f'`{texts[LAST.search(spec)[1]]}`'
    for condition in words:
        yield f'({condition} is no line)', ''


def made(top, table):
    """A table of this name, or None where there is none."""
    path = os.path.join(top, SPECS, f'{table}.antt')
    if not os.path.exists(path):
        return None
    with open(path, encoding='utf-8') as file, open(os.path.join(top, SPECS, 'Words.antt'), encoding='utf-8') as texts, \
            open(os.path.join(top, SAID), encoding='utf-8') as words:
        lines = rows(file.read(), dict(TEXT.findall(texts.read())), said(words.read(), table))
    return '\n'.join(['| the first that holds | word |', '|---|---|', *(f'| {condition} | {word} |' for condition, word in lines)]) + '\n'
