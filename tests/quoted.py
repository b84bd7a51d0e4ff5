#!/usr/bin/env python3
"""quoted.py [PROGRAM]: plays what the documents quote, and compares.

- Each console block of a page whose command is `./teredo lab`, `nested`, `reach`, `wire`, `show`, `gen` or a tool is run, and the lines below the
  command are what it must write; its status follows from them. Commands are run from the top of the repository.
- The scenario that docs/START.md shows is the example that it names.
- Each row of tests/stored/refusals.txt: the example at the top of docs/SCENARIOS.md is changed as it says, and played.

Ends with status 1 where something differs, where fewer blocks are found than BLOCKS_MIN says, or other rows than
docs/SCENARIOS.md counts.
"""
import glob
import os
import re
import shlex
import subprocess
import sys
import tempfile

TOP = os.path.dirname(os.path.dirname(os.path.abspath(__file__)))
PROGRAM = os.path.join(TOP, 'crates', 'teredo_cli', 'out', 'teredo_cli')
TOOLS = {'trace': 'trace', 'follow': 'follow', 'state': 'state', 'flow': 'flow', 'lint': 'lint', 'check': 'check', 'generated': 'generated', 'json': 'json_lines', 'csv': 'csv_table',
         'explore': 'explore', 'sweep': 'sweep', 'meet': 'meet'}
ALONE = ('meet',)  # asks no program
COMMAND = re.compile(rf'^\$ \./teredo (lab examples/|nested examples/|reach examples/|wire examples/|show |gen |(?:{"|".join(TOOLS)}) )')
# How many commands each page quotes at least: a check of nothing passes.
BLOCKS_MIN = {'README.md': 2, 'docs/GUIDE.md': 11, 'docs/SURE.md': 2, 'docs/CAPTURES.md': 2, 'docs/COMMANDS.md': 6,
              'docs/TOOLS.md': 4, 'docs/START.md': 3, 'docs/REACH.md': 3}
# The status of what ends so; 0 of all else.
STATUSES = {'fault ': 1, 'words': 2, 'scenario ': 3, 'wire full': 8, 'unlicensed ': 10, 'capture ': 11, 'nested': 12, 'reach: ': 12}


def read(path):
    with open(path, encoding='utf-8') as file:
        return file.read()


def blocks(text):
    """The commands of a page's console blocks, with the lines that follow each."""
    for block in re.findall(r'^```console\n(.*?)^```', text, flags=re.M | re.S):
        command, lines = None, []
        for line in block.splitlines() + ['$ ']:
            if line.startswith('$ '):
                if command and lines:
                    yield command, lines
                command, lines = (line if COMMAND.match(line) else None), []
            else:
                lines.append(line)


def run(program, command):
    """The status of a quoted command, and the lines that it writes."""
    word = command.split()[2]
    ours = [program, word] if word not in TOOLS else [sys.executable, '-B', f'tools/{TOOLS[word]}.py', *([] if word in ALONE else ['--program', program])]
    command = command.replace(f'$ ./teredo {word}', shlex.join(ours), 1)
    command = command.replace('| ./teredo ', f'| {shlex.quote(program)} ')
    done = subprocess.run(['bash', '-o', 'pipefail', '-c', command], cwd=TOP, stdout=subprocess.PIPE,
                          stderr=subprocess.DEVNULL, timeout=60)
    return done.returncode, done.stdout.decode().splitlines()


def status_of(lines):
    return next((status for front, status in STATUSES.items() if lines[-1].startswith(front)), 0)


def check_blocks(program):
    wrong, counts = 0, dict.fromkeys(BLOCKS_MIN, 0)
    for page in ['README.md'] + sorted(glob.glob('docs/*.md', root_dir=TOP)):
        for command, lines in blocks(read(os.path.join(TOP, page))):
            counts[page] = counts.get(page, 0) + 1
            status, written = run(program, command)
            if written != lines or status != status_of(lines) and '|' not in command:
                wrong += 1
                print(f'{page}: {command}\nis quoted with {lines}\nand writes      {written}, status {status}')
    for page, least in BLOCKS_MIN.items():
        if counts[page] < least:
            wrong += 1
            print(f'{page}: {counts[page]} commands are quoted, and {least} were once')
    return wrong


def check_scenario():
    """docs/START.md shows the whole text of the scenario that it plays."""
    page = read(os.path.join(TOP, 'docs', 'START.md'))
    path, text = re.search(r'`(examples/scenarios/\w+\.toml)`.*?```toml\n(.*?)```', page, re.S).groups()
    if text == read(os.path.join(TOP, path)):
        return 0
    print(f'docs/START.md: shows another text than {path}')
    return 1


def rows():
    """What the example has, what it becomes, and the line."""
    for line in read(os.path.join(TOP, 'tests', 'stored', 'refusals.txt')).split('\n\n', 1)[1].splitlines():
        yield re.fullmatch(r'(.*?) {2,}(.*?) {2,}(scenario.*)', line).groups()


def check_refusals(program):
    page = read(os.path.join(TOP, 'docs', 'SCENARIOS.md'))
    example = re.search(r'## Example\n\n```toml\n(.*?)```', page, re.S)[1]
    wrong, found = 0, list(rows())
    for before, after, said in found:
        with tempfile.NamedTemporaryFile('w', suffix='.toml', encoding='utf-8') as file:
            file.write(example.replace(before, after, 1))
            file.flush()
            played = subprocess.run([program, 'lab', file.name], stdout=subprocess.PIPE, stderr=subprocess.DEVNULL, timeout=60)
        if before not in example or played.returncode != 3 or played.stdout.decode() != said + '\n':
            wrong += 1
            print(f'tests/stored/refusals.txt: `{before}` to `{after}` says {played.stdout.decode()[:80]!r}, status {played.returncode}')
    told = re.findall(r'`tests/stored/refusals.txt` has (\d+) more', page)
    if told != [str(len(found))]:
        wrong += 1
        print(f'docs/SCENARIOS.md: counts {told} refusals, and tests/stored/refusals.txt has {len(found)}')
    return wrong


def main():
    words = sys.argv[1:]
    if words in (['-h'], ['--help']):
        print(__doc__.strip())
        return 0
    program = os.path.abspath(words[0] if words else PROGRAM)
    if len(words) > 1 or not os.access(program, os.X_OK):
        print(f'quoted.py: {program} is no program', file=sys.stderr)
        return 1
    return 1 if check_blocks(program) + check_scenario() + check_refusals(program) else 0


sys.exit(main())
