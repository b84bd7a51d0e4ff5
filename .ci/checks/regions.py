"""Parts of pages that are made: from the line `<!-- made by .ci/pages --write of SOURCE -->` to the line END.

SOURCE is
- a tool, whose own help it is;
- the crates, each with the first sentence of its root file;
- docs/parts/fates.txt, whose rows have the cells of the table of fates with ` | ` between them, with `#S` those of a server;
- the schema of scenarios, whose keys it is, with `#events` its events;
- docs/COMMANDS.md itself, whose sections have the statuses, with `#manual` the names of the manual pages, with `#contents` their own;
- docs/parts/reach.txt with `#TABLE`, whose words the lines of that table of `reach` have;
- a file of tests/stored/, of which stored_tables.py makes a table;
- a scenario of an example, as it stands;
- a folder of examples, each with the first sentence of its first comment, and with what that has behind `RFC 4380: ` and `Look at: `.

Which examples, or fates of a node, and in which order, is said by the names in the table's first column: a new one is a row with its
name in backquotes.
"""
import ast
import os
import re

import keys
import reach_tables
import statuses
import stored_tables

BEGIN, END = '<!-- made by .ci/pages --write of {source} -->', '<!-- so far -->'
REGION = re.compile(r'(<!-- made by \.ci/pages --write of (\S+) -->\n)(.*?)(<!-- so far -->)', re.S)
# Of a longer sentence about a crate its first part.
CELL_MAX = 150
CRATES, FATES, SCHEMA, COMMANDS = 'crates.txt', 'docs/parts/fates.txt', 'docs/scenario.schema.json', 'docs/COMMANDS.md'
# A folder of examples, and what the head of its table calls one.
EXAMPLES = {'examples/scenarios': 'scenario', 'examples/chains': 'chain'}
STANDARD, LOOK = 'RFC 4380', 'Look at'
MANUAL, CONTENTS, SERVER = 'manual', 'contents', 'serve'
# What a link leaves out of the heading that it leads to.
NO_ANCHOR = re.compile(r'[^\w -]')
ROW = re.compile(r'^\| (?:\*\*)?`(\w+)`(?:\*\*)? \|', re.M)


def read(top, path):
    with open(os.path.join(top, path), encoding='utf-8') as file:
        return file.read()


def help_of(text):
    """What a tool says of itself, as Markdown: what is indented stands as it is."""
    blocks = []
    for block in text.strip().split('\n\n'):
        lines = block.split('\n')
        if all(line.startswith('  ') for line in lines if line):
            lines = [line[2:] for line in lines]
            if blocks and blocks[-1].endswith('\n```'):
                blocks[-1] = f'{blocks[-1][:-4]}\n\n' + '\n'.join(lines) + '\n```'
            else:
                blocks.append('```text\n' + '\n'.join(lines) + '\n```')
        else:
            blocks.append(' '.join(lines))
    return '\n\n'.join(blocks) + '\n'


def first_sentence(lines):
    """The first sentence of some lines, without its full stop; of a longer one what stands before its colon."""
    said = re.split(r'(?<=[^.][.]) ', ' '.join(lines))[0].rstrip('.')
    return said if len(said) <= CELL_MAX else said.split(': ')[0]


def crates(top):
    """The table of the crates, each with what its root file says first."""
    rows = ['| crate | what it is |', '|---|---|']
    for name in re.findall(r'^(\w+) *:', read(top, CRATES), re.M):
        root = next(path for path in (f'crates/{name}/src/lib.rt', f'crates/{name}/src/main.rt') if os.path.exists(os.path.join(top, path)))
        first = []
        for line in read(top, root).splitlines():
            if not line.startswith('//! ') or line.startswith('//! #'):
                break
            first.append(line[4:].strip())
        rows.append(f'| `{name}` | {first_sentence(first)} |')
    return '\n'.join(rows) + '\n'


def fates(text):
    rows = [line for line in text.splitlines() if line and not line.startswith('#')]
    return '\n'.join(['| fate | of | means | likely cause | look next |', '|---|---|---|---|---|', *(f'| {row} |'.replace(' |  |', ' | |') for row in rows)]) + '\n'


def fates_of(text, node, old):
    """What each fate of a node means, and its likely cause: first those that the table has, in their order, then those that it lacks."""
    rows = [[cell.strip() for cell in line.split('|')] for line in text.splitlines() if line and not line.startswith('#')]
    cells = {cells[0].strip('*`'): cells for cells in rows if node in cells[1].split(', ')}
    names = [name for name in dict.fromkeys([*ROW.findall(old), *cells]) if name in cells]
    rows = [f'| {cells[name][0]} | {cells[name][2]} | {cells[name][3]} |'.replace(' |  |', ' | |') for name in names]
    return '\n'.join(['| fate | means | likely cause |', '|---|---|---|', *rows]) + '\n'


def contents(page):
    """A page's sections, each a link."""
    links = ((head, NO_ANCHOR.sub('', head.lower()).replace(' ', '-')) for head in re.findall(r'^## (.*)$', page, re.M))
    return ', '.join(f'[{head}](#{anchor})' for head, anchor in links) + '\n'


def with_contents(page):
    """A page that is made as a whole, with its contents above its first section."""
    return page.replace('\n## ', f'\n{contents(page)}\n## ', 1)


def manual(page):
    """The line that names each manual page: a command's section makes one, and that of `serve` is for operators."""
    names = [name for name in sorted(re.findall(r'^## (\w+)$', page, re.M)) if name != SERVER]
    return f'Manual pages: teredo(1), teredo-serve(8), teredo-scenario(5), and in section 1 teredo-COMMAND for {", ".join(f"`{name}`" for name in names[:-1])} and `{names[-1]}`.\n'


def example(text):
    """The cells of an example from its first comment: what it shows, the sections of the standard, and where to look."""
    said, marked = [], {}
    for line in text.splitlines():
        if not line.startswith('# '):
            break
        mark, colon, rest = line[2:].partition(': ')
        if colon and mark in (STANDARD, LOOK):
            marked[mark] = rest
        else:
            said.append(line[2:])
    return first_sentence(said), marked.get(STANDARD, ''), marked.get(LOOK, '')


def examples(top, folder, old):
    """The table of those examples of a folder that the table has now; the column of the standard only where one names a section."""
    names = [name for name in ROW.findall(old) if os.path.exists(os.path.join(top, folder, f'{name}.toml'))]
    cells = {name: example(read(top, f'{folder}/{name}.toml')) for name in names}
    columns = [0, 1, 2] if any(cells[name][1] for name in names) else [0, 2]
    rows = [[EXAMPLES[folder], *(('shows', STANDARD, LOOK.lower())[column] for column in columns)], ['---'] * (1 + len(columns))]
    rows += [[f'`{name}`', *(cells[name][column] for column in columns)] for name in names]
    return '\n'.join(f'| {" | ".join(row)} |'.replace(' |  |', ' | |').replace('| --- ', '|---').replace('--- |', '---|') for row in rows) + '\n'


def made(top, source, old=''):
    """What stands between the two lines, where some stood before, or None where nothing is made of the source."""
    if source in EXAMPLES:
        return examples(top, source, old)
    if source == CRATES:
        return crates(top)
    if os.path.dirname(source) in EXAMPLES and source.endswith('.toml') and os.path.exists(os.path.join(top, source)):
        return f'```toml\n{read(top, source)}```\n'
    path, _, part = source.partition('#')
    if path == SCHEMA:
        return keys.made(read(top, path), part)
    if path == COMMANDS:
        return {MANUAL: manual, CONTENTS: contents}.get(part, statuses.made)(read(top, path))
    if path == reach_tables.SAID:
        return reach_tables.made(top, part)
    if path.startswith(stored_tables.FOLDER) and os.path.exists(os.path.join(top, path)):
        return stored_tables.made(read(top, path), part)
    if path == FATES and part:
        return fates_of(read(top, path), part, old)
    if source == FATES:
        return fates(read(top, source))
    if source.startswith('tools/') and os.path.exists(os.path.join(top, source)):
        return help_of(ast.get_docstring(ast.parse(read(top, source))) or '')
    return None


def renewed(top, page):
    """A page with its parts made anew."""
    return REGION.sub(lambda found: found[1] + (made(top, found[2], found[3]) or '(nothing is made of this)\n') + found[4], page)


def by_hand(page):
    """A page without the parts that are made."""
    return REGION.sub('', page)
