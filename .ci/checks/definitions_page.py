"""docs/DEFINITIONS.md, made from the comments above the definitions of specs/.

A comment is the block of `--` lines directly above a definition. A line that begins with `*WORD*` says which word the definition
gives its meaning; lines from `Premise: ` on tell, field by field, what a theorem on histories needs.
"""
import re

import regions
from definitions import head_of
from sentences import comment_above

PAGE, HEAD = 'docs/DEFINITIONS.md', 'docs/parts/definitions.md'
PREMISES = 'What theorems on histories need'
WORD = re.compile(r'\*([^*]+)\*(?:, ([^:]+))?:')
PREMISE = 'Premise: '
SEE = re.compile(r'See `(\w+)`\.$')


class Told:
    """What stands above a definition: the words that it gives a meaning, its sentence with them, what it asks for as a premise."""

    def __init__(self, lines):
        texts = [re.sub(r'^--\s?', '', line) for line in lines]
        begin = next((number for number, text in enumerate(texts) if text.startswith(PREMISE)), len(texts))
        self.premise = ' '.join(texts[begin:]).removeprefix(PREMISE)
        self.text = ' '.join(text.strip() for text in texts[:begin] if text.strip())
        self.words = [(found[1], found[2] or '') for found in map(WORD.match, texts[:begin]) if found]


def told_of(files, crate):
    """Of a crate each public definition: (its path, it, what stands above it); and what each file says of itself."""
    for path, file in files.specs[crate].items():
        with open(f'{files.top}/{path}', encoding='utf-8') as opened:
            lines = opened.read().splitlines()
        places = heads(lines)
        for each in file.definitions:
            if each.is_public:
                yield path, each, Told(comment_above(lines, places[each.name], '--'))


def heads(lines):
    """Where each definition of a file begins: its first line that isn't an equation."""
    found = {}
    for number, line in enumerate(lines):
        if name := head_of(line):
            found.setdefault(name, number)
    return found


def named_by_clauses(statements):
    """The definitions of specs/ that a statement names."""
    return {below for name in statements.stated for below in statements.items[name].names
            if below in statements.items and '/specs/' in statements.items[below].path}


def made(top, statements, mark):
    """The page, and the definitions that have no sentence."""
    files, named, faults = statements.files, named_by_clauses(statements), []
    words, premises, by_crate = [], {}, []
    for crate in files.crates:
        rows, last = [], ''
        for path, each, told in told_of(files, crate):
            if not told.text and not told.premise:
                faults.append(f'{path}: no sentence above `{each.name}`')
            words += [(word, of, each.name, crate) for word, of in told.words]
            if told.premise:
                premises[each.name] = told.premise
            if files.name_of(path, each.name) in named or told.words:
                if path != last:
                    rows.append(f'\n[{path.split("/")[-1]}](../{path}):\n\n')
                    last = path
                rows.append(f'- `{each.name}`: {linked(told.text or told.premise)}\n')
        if rows:
            by_crate.append(f'## `{crate}`\n{"".join(rows)}')
    with open(f'{top}/{HEAD}', encoding='utf-8') as file:
        page = file.read().replace('\n', f'\n\n{mark}\n', 1)
    table = ''.join(f'| {word} | {of} | `{name}`, [`{crate}`](#{crate}) |\n' for word, of, name, crate in sorted(words, key=lambda row: row[0].lower()))
    return regions.with_contents(f'{page.rstrip()}\n\n## Words\n\n| word | of what | definition |\n|---|---|---|\n{table}\n## {PREMISES}\n\n'
                                 f'Each premise with all that it needs, field by field. [SURE.md](SURE.md) has the theorems, and examples without one premise each.\n\n'
                                 f'{items(premises)}\n' + '\n'.join(by_crate)), faults


def items(premises):
    """An item for each premise, with those that say the same."""
    names = {name: [name] for name, text in premises.items() if not SEE.match(text)}
    for name, text in premises.items():
        if see := SEE.match(text):
            names[see[1]].append(name)
    return ''.join('- ' + ', '.join(f'`{each}`' for each in names[name]) + f', {linked(premises[name])}\n' for name in names)


def linked(text):
    """Pages of docs/ as links."""
    return re.sub(r'`docs/(\w+\.md)`', r'[\1](\1)', text)
