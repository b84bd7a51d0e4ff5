#!/usr/bin/env python3
"""Manual pages, made from pages of docs/: headings, paragraphs, lists, tables and what is quoted, as `man` shows them.

  man --all FOLDER                                all: teredo(1), one for each command, teredo-serve(8), teredo-scenario(5)
  man lab | man -l -                              the page of a command, to look at
  man docs/CAPTURES.md --name audit               of another page, under a name
  man docs/GUIDE.md "Reading a datagram" --name show    of a section of a page

The page of a command is its section of docs/COMMANDS.md, with the options of a tool, and with what other pages say of it.
"""
import os
import re
import subprocess
import sys

sys.dont_write_bytecode = True

import command

DOCS = os.path.join(command.TOP, 'docs')
COMMANDS = os.path.join(DOCS, 'COMMANDS.md')
SCRIPTS = {'json': 'json_lines', 'csv': 'csv_table'}  # of the tools that have another name
OF_ROOT = ('serve',)  # what section 8 has
FORMAT = 'scenario'  # what section 5 has
# What is said of a command elsewhere: a page, or a section of one.
MORE = {'serve': ('SERVE.md', None), 'show': ('GUIDE.md', 'Reading a datagram'), 'qualify': ('GUIDE.md', "This machine's own NAT"),
        'audit': ('CAPTURES.md', None), 'nested': ('SCENARIOS.md', 'Chains of NATs'), 'reach': ('REACH.md', None),
        'meet': ('GUIDE.md', 'Two machines in an evening')}
LINK = re.compile(r'!?\[([^]]*)\]\(([^)]*)\)')
ITEM = re.compile(r'(?:- |(\d+\.) )(.*)')


def read(path):
    """A page without the lines that say what makes a part of it."""
    return re.sub(r'^<!--.*-->\n', '', command.read(path), flags=re.M)


def escaped(text):
    """Characters as roff takes them, whatever it holds its input for."""
    text = text.replace('-', '\\-').replace("'", '\\(aq').replace('"', '\\(dq').replace('^', '\\(ha').replace('`', '\\(ga').replace('~', '\\(ti')
    return ''.join(char if ord(char) < 128 else f'\\[u{ord(char):04X}]' for char in text)


def plain(text):
    """A line of Markdown as one of roff: bold and code in bold, a link as its text."""
    text = escaped(LINK.sub(r'\1', text).replace('\\|', '|').replace('\\', '\\e'))
    text = re.sub(r'\\\(ga(.*?)\\\(ga', r'\\fB\1\\fR', text)
    text = re.sub(r'\*\*(.+?)\*\*', r'\\fB\1\\fR', text)
    text = re.sub(r'(?<![\w*])\*([^*]+)\*(?![\w*])', r'\\fI\1\\fR', text)
    return '\\&' + text if text[:1] == '.' else text


def quoted(line):
    line = escaped(line.replace('\\', '\\e'))
    return '\\&' + line if line[:1] == '.' else line


def cells_of(line):
    return [cell.strip() for cell in re.split(r'(?<!\\)\|', line)[1:-1]]


def table_of(block):
    """A row's first cell, and below it the others; behind their heads where there are several."""
    head, lines = cells_of(block[0]), []
    if len(head) == 2 and all(head):
        lines += ['.TP', f'\\fI{plain(head[0])}\\fR', f'\\fI{plain(head[1])}\\fR']
    elif head[0]:
        lines += ['.PP', f'\\fI{plain(head[0])}\\fR:']
    for cells in [cells_of(line) for line in block[2:]]:
        lines += ['.TP', plain(cells[0]) or '\\(em']
        if len(head) == 2:
            lines.append(plain(cells[1]) or '\\(em')
            continue
        said = [f'\\fI{plain(name)}\\fR: {plain(cell)}' if name else plain(cell) for name, cell in zip(head[1:], cells[1:]) if cell]
        lines += [line for text in said or ['\\(em'] for line in (text, '.br')][:-1]
        # Heads without a cell in any row would be lost.
    unsaid = [name for at, name in enumerate(head) if at and name and not any(cells_of(line)[at] for line in block[2:])]
    return lines + [line for name in unsaid for line in ('.PP', f'\\fI{plain(name)}\\fR: none')]


def items_of(block):
    lines = []
    for line in block:
        item = ITEM.match(line)
        if item and item[1]:
            lines += [f'.IP {item[1]} 4', plain(item[2])]
        elif item and re.match(r'`[^`]+`(?:(?: to |, )`[^`]+`)*: ', item[2]):
            word, _, said = item[2].partition('`: ')
            lines += ['.TP', plain(word + '`'), plain(said)]
        elif item:
            lines += ['.IP \\(bu 2', plain(item[2])]
        else:
            lines.append(plain(line.strip()))
    return lines


def block_of(block):
    """The lines of a block of the page."""
    if block[0].startswith('```'):
        return ['.PP', '.nf', '.RS 4'] + [quoted(line) for line in block[1:-1]] + ['.RE', '.fi']
    if block[0].startswith('## '):
        return [f'.SH {plain(block[0][3:]).upper()}'.replace('\\(AQ', '\\(aq').replace('\\(DQ', '\\(dq').replace('\\FB', '\\fB')]
    if block[0].startswith('### '):
        return [f'.SS {plain(block[0][4:])}']
    if block[0].startswith('|'):
        return table_of(block)
    if ITEM.match(block[0]):
        return items_of(block)
    return ['.PP'] + [plain(line.removeprefix('> ').strip()) for line in block]


def blocks(text):
    """The blocks of a page, what is quoted as one, a heading and a list as one each."""
    block, is_quoted = [], False
    for line in text.splitlines() + ['']:
        is_begin = not is_quoted and (line.startswith('```') or ITEM.match(line) and block and not ITEM.match(block[0]))
        if is_begin and block:
            yield block
            block = []
        if line.startswith('```'):
            is_quoted = not is_quoted
        if line or is_quoted:
            block.append(line)
        if block and (not line or not is_quoted and line.startswith(('#', '```'))) and not is_quoted:
            yield block
            block = []


def body_of(text):
    return [line for block in blocks(text) for line in block_of(block)]


def head_of(name, number, title):
    """How a page begins: its title and what it is, in a line."""
    name = f'teredo-{name}' if name else 'teredo'
    version = read(os.path.join(command.TOP, 'VERSION')).strip()
    title = plain(title.replace('`', '').rstrip('.'))
    return [f'.TH {escaped(name.upper())} {number} \\(dq\\(dq \\(dqteredo {escaped(version)}\\(dq'.replace('\\(dq', '"'), '.nh', '.ad l',
            '.SH NAME', f'{escaped(name)} \\- {title[:1].lower()}{title[1:]}']


def manual(text, name, number=1):
    """The lines of a page; its title says what it is, and its first paragraph what for."""
    title, _, rest = text.partition('\n')
    body = rest.lstrip()
    begins = [] if body.startswith('## ') else ['.SH DESCRIPTION']
    return head_of(name, number, title.lstrip('# ')) + begins + body_of(rest)


def section_of(text, heading):
    """A section as a page of its own, or None."""
    found = re.search(rf'^## {re.escape(heading)}\n(.*?)(?=^## |\Z)', text, re.M | re.S)
    return found and f'# {heading}\n' + re.sub('^###', '##', found[1], flags=re.M)


def names():
    return re.findall(r'^## (\w+)$', read(COMMANDS), re.M)


def number_of(name):
    return 8 if name in OF_ROOT else 5 if name == FORMAT else 1


def synopsis_of(line):
    """Words of a command: what stands for a value in italics, all else in bold."""
    words = [f'\\fI{escaped(word)}\\fR' if re.search('[A-Z]', word) else escaped(word) if word in '[]|>' else f'\\fB{escaped(word)}\\fR'
             for word in re.findall(r'[\[\]|>]|[^\s\[\]|>]+', line)]
    return ' '.join(words).replace('[ ', '[').replace(' ]', ']')


def see_also(words):
    pages = ['\\fBteredo\\fR(1)'] + [f'\\fBteredo\\-{word}\\fR({number_of(word)})' for word in words]
    return ['.SH SEE ALSO', ', '.join(pages)]


def script_of(name):
    path = os.path.join(command.TOP, 'tools', f'{SCRIPTS.get(name, name)}.py')
    return path if os.path.exists(path) else None


def options_of(name):
    """What `--help` of a tool says, as it says it."""
    script = script_of(name)
    if script is None:
        return []
    said = subprocess.run([sys.executable, '-B', script, '--help'], stdout=subprocess.PIPE, env={**os.environ, 'COLUMNS': '78'})
    return ['.SH OPTIONS', '.nf'] + [quoted(line) for line in said.stdout.decode().splitlines()] + ['.fi']


def more_of(name):
    """What another page says of a command."""
    if name not in MORE:
        return []
    file, section = MORE[name]
    text = read(os.path.join(DOCS, file))
    title, _, rest = (section_of(text, section) if section else text).partition('\n')
    begins = [] if rest.lstrip().startswith('## ') else [f'.SH {plain(title.lstrip("# ")).upper()}'.replace('\\(AQ', '\\(aq')]
    return begins + body_of(rest)


def of_command(name):
    """The page of a command, from its section of docs/COMMANDS.md."""
    text = section_of(read(COMMANDS), name)
    _, shape, rest = re.split(r'```text\n|\n```\n', text, maxsplit=2)
    first, also = rest.strip().partition('\n')[0], re.search(r'## See also\n+(.*)', rest)
    told = re.sub(r'## See also\n+.*', '', rest)
    return (head_of(name, number_of(name), re.split(r'[.:] |\.$', LINK.sub(r'\1', first))[0])
            + ['.SH SYNOPSIS', synopsis_of(shape), '.SH DESCRIPTION'] + body_of(told) + options_of(name) + more_of(name)
            + see_also(also[1].split(', ') if also else []))


def of_all():
    """teredo(1): what all commands share, and a line for each."""
    title, _, rest = read(COMMANDS).partition('\n')
    lines = head_of('', 1, 'a Teredo server and laboratory') + ['.SH SYNOPSIS', '\\fBteredo\\fR \\fICOMMAND\\fR \\fIWORD\\fR ...', '.SH DESCRIPTION']
    lines += body_of(rest.partition('\n## ')[0]) + ['.SH COMMANDS']
    for name in names():
        _, shape, told = re.split(r'```text\n|\n```\n', section_of(read(COMMANDS), name), maxsplit=2)
        first = re.split(r'(?<=\.) ', told.strip().partition('\n')[0])[0]
        lines += ['.TP', synopsis_of(shape), plain(first)]
    return lines + see_also(names() + [FORMAT])


def pages():
    """Each manual page by the name of its file."""
    made = {'teredo.1': of_all()}
    for name in names():
        made[f'teredo-{name}.{number_of(name)}'] = of_command(name)
    text = read(os.path.join(DOCS, 'SCENARIOS.md'))
    made[f'teredo-{FORMAT}.{number_of(FORMAT)}'] = manual(text, FORMAT, number_of(FORMAT)) + see_also(['lab', 'nested', 'lint'])
    return made


def lines_of(options):
    if options.page in names():
        return of_command(options.page)
    text = read(options.page)
    if options.section and section_of(text, options.section) is None:
        raise command.Refusal(f'{options.page} has no section "{options.section}"')
    name = options.name or os.path.basename(options.page).partition('.')[0].lower()
    return manual(section_of(text, options.section) if options.section else text, name, number_of(name))


def main():
    parser = command.words(__doc__)
    parser.add_argument('page', metavar='PAGE', nargs='?', default='serve', help='a command, or a page in Markdown; serve where none is named')
    parser.add_argument('section', metavar='SECTION', nargs='?', help='a heading of that page')
    parser.add_argument('--name', metavar='WORD', help='the command; the name of the page where it is not given')
    parser.add_argument('--all', metavar='FOLDER', help='write every page into this folder')
    options = parser.parse_args()
    if options.all is None:
        print('\n'.join(lines_of(options)))
        return 0
    for file, lines in pages().items():
        command.write(os.path.join(options.all, file), '\n'.join(lines) + '\n')
    return 0


if __name__ == '__main__':
    command.run(main)
