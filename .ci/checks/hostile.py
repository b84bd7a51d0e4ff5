"""Files and words that no tool takes: a status and a line, no traceback and no fault of the tool's own.

- Reports that are broken in many ways, drawn from the stored ones, end with a sentence. None, and no scenario, has a control
  character printed, on a terminal, into a file or into a picture.
- Texts that cost Python's own reader of TOML gigabytes, and others of that kind, take neither much time nor much memory.
"""
import contextlib
import glob
import importlib.util
import io
import os
import random
import resource
import subprocess
import sys
import tempfile
import time
from xml.etree import ElementTree

import command
import report
from stored import TOP, names, path_of, run

LINE = b'0 0 0 tick a rs_cone #0=198.51.100.1:1024>192.0.2.1:3544/61\n'
HOSTILE = (
    b'', b'\0' * 100, b'\xff\xfe', b'[' * 100_000, b'x = ' + b'{a=' * 5000, b'a.' * 5000 + b'a = 1', b'seed = ' + b'9' * 6000, b'seed = 0x' + b'f' * 6000,
    b'"' * 5000, b"'" * 3000, b'events = 5', b'events = {}', b'events = [5]', b'seed = 1\nevents = []\nclient = 5\nnat = [5]\n',
    b'seed = 1\nevents = ["host a a 00"]\n[client]\n', b'seed = 1\nevents = ["' + b'x' * 100_000 + b'"]', b'seed = 1\nevents = ["\\uD800"]',
    b'seed = 1\nevents = ["\\u0000"]\n# chain: a:b', b'\xef\xbb\xbfseed = 1\r\nevents = []\r\n', b'# chain: a\0b\nseed = 1\nevents = []\n',
    b'# chain: ' + b'a:b,' * 100_000 + b'\nseed = 1\nevents = []\n', b'#' * 4_194_305, b'seed = 1\nevents = [' + b'"next",' * 3000 + b'"nextt"]\n',
    b'zz = 1\n' * 3,
    b'\n'.join(b'k%d = 1' % number for number in range(3000)), b'total ', b'wire full', b'total records 0 entries 0 delivered 0 handed 0 kept 0 dropped 0\nx',
    b'number,seed\n0,1\n', b'number,seed\n"', b'number', LINE, LINE + b'1 0 0 deliver:0 a forward #0=1.2.3.4:5>1.2.3.4:6/10\ntotal records 2\n',
    LINE + b'1 0 0 copy:1 - put #1=1.2.3.4:5>1.2.3.4:6/10\ntotal records 2\n', LINE * 2 + b'wire full\n', b'0 0 0 tick a nat_closed\nwire full\n',
    b'0 0 0 tick a same is nothing handed/x late/\nwire full\n', b'0 0 0 deliver:x a b\n', b'0 0 0 deliver:' + b'9' * 9000 + b' a b\nwire full\n',
    b'9' * 9000 + b' 0 0 tick a rs_cone\n')
HOSTILE_TOOLS = (['trace'], ['trace', '--packets'], ['trace', '--event', '0'], ['follow'], ['state'], ['flow'], ['flow', '--svg', '--ends'], ['flow', '--narrow'], ['lint'],
                 ['play'], ['check'],
                 ['explore', '--jobs', '1'], ['sweep', '--seeds', '1..2', '--jobs', '1'], ['sweep', '--plot', 'number,seed'], ['page'])

# A program that refuses whatever it is given, and texts that are dear to read.
REFUSES = '#!/bin/sh\necho "scenario: not toml"\nexit 3\n'
DEAR = {'a key of many parts': 'a' + '.a' * 50_000 + ' = 1', 'keys of many parts': ''.join(f'k{at}.{".".join("abcdefgh" * 9)} = 1\n' for at in range(20_000)),
        'deep headers': '\n'.join(f'[a{at}{".a" * 78}]' for at in range(20_000)), 'a list of empty texts': 'x = [' + '"",' * 1_000_000 + ']',
        'a list of lists': 'x = [' + '[],' * 1_000_000 + ']', 'brackets': '[' * 100_000, 'a long number': 'x = 0x' + 'f' * 1_000_000,
        'blanks behind a chain': '# chain: x' + ' ' * 100_000 + 'y\nx', 'tables': '[[nat]]\nname = "a"\n' * 150_000}
DEAR_BYTES, DEAR_SECONDS = 1 << 30, 20
DRAWN = 120  # broken reports
CHAIN = 2000  # deliveries in one another, more than Python goes deep
CONTROLS = ('\x1b[2J', '\x07', '\x9b1m', '\u202e', '\r', '\x00')


def called(tool, words):
    """The same of a tool that is called here: its status, and what it wrote and said. A fault of its own goes through."""
    written, said, before = io.StringIO(), io.StringIO(), (sys.argv, sys.stdin)
    try:
        sys.argv, sys.stdin = [tool, *words], io.StringIO()
        with contextlib.redirect_stdout(written), contextlib.redirect_stderr(said):
            status = importlib.import_module(tool).main()
    except command.Refusal as fault:
        status = fault.status
        said.write(str(fault))
    except SystemExit as fault:
        status = fault.code
    finally:
        sys.argv, sys.stdin = before
    return status, written.getvalue(), said.getvalue()


def check_hostile(program):
    found = []
    with tempfile.TemporaryDirectory() as folder:
        for number, data in enumerate(HOSTILE):
            path = os.path.join(folder, f'{number}.toml')
            with open(path, 'wb') as file:
                file.write(data)
            for tool, *words in HOSTILE_TOOLS:
                try:
                    status, written, said = called(tool, [path, '--program', program, *words])
                except Exception as fault:
                    status, written, said = None, '', repr(fault)
                if status not in (0, 1, 2, 4) or status and not (said or written):
                    found.append(f'{tool} {" ".join(words)}, file {number}, {data[:30]}: status {status}, {said[-200:]!r}')
    return found


def check_words(program):
    """A wrong word, no word and a file that isn't there: a status, and no traceback."""
    found = []
    for path in sorted(path for folder in ('tools', 'examples', 'tests', 'bench') for path in glob.glob(f'{TOP}/{folder}/*.py')):
        if '#!' not in command.read(path)[:2]:
            continue
        script = os.path.relpath(path, TOP)
        for words, due in ((['--help'], (0,)), (['--no-such-word'], (1, 2)), (['/nowhere/at/all'], (1, 2, 4))):
            status, written, said = run(script, *words)
            is_right = status in due
            if not is_right or 'Traceback' in said or not (written if status == 0 else said):
                found.append(f'{script} {" ".join(words)}: status {status}, {said[-200:]!r}')
    return found


def broken(drawn):
    """A stored report with something wrong in it, or several things."""
    lines = [line.split(' ') for line in command.read(path_of(drawn.choice(names())) + '.stdout').splitlines()]
    for _ in range(drawn.randint(1, 4)):
        line = drawn.choice(lines)
        at = drawn.randrange(len(line))
        word, other = line[at], drawn.choice(drawn.choice(lines) or [''])
        line[at] = drawn.choice((other, word[:-1], word + drawn.choice(CONTROLS), word + '\u00b2', word.replace('1', '9' * 40), '-', '', '\u00b2', word * 3,
                                 f'#{drawn.randrange(90)}=192.0.2.1:1>192.0.2.2:2/40', f'deliver:{drawn.randrange(90)}', 'is fe80::1%\x1b', f'{word} {other}'))
        if drawn.random() < 0.2:
            lines.insert(drawn.randrange(len(lines)), drawn.choice(lines)[:])
        if drawn.random() < 0.1:
            del lines[drawn.randrange(len(lines))]
        if not lines:
            break
    return '\n'.join(' '.join(line) for line in lines) + '\n'


def chain_of_forwards(count):
    """A report in which each delivery makes the next entry."""
    mark = '=198.51.100.1:1024>192.0.2.1:3544/61\n'
    return f'0 0 0 tick a rs_cone #0{mark}' + ''.join(f'{at} 0 0 deliver:{at - 1} s1 forward #{at}{mark}' for at in range(1, count)) + 'wire full\n'


def check_broken_reports(program):
    """Read by Python alone: a program isn't asked."""
    found, drawn = [], random.Random(1)
    with tempfile.TemporaryDirectory() as folder:
        path = os.path.join(folder, 'broken.txt')
        for text in [chain_of_forwards(CHAIN), *(broken(drawn) for _ in range(DRAWN))]:
            with open(path, 'w', encoding='utf-8', errors='replace') as file:
                file.write(text)
            for tool, *words in (['trace'], ['trace', '--packets'], ['flow'], ['flow', '--narrow', '--ends'], ['flow', '--svg'], ['json_lines'], ['csv_table']):
                try:
                    status, written, said = called(tool, [path, *words])
                except (RecursionError, MemoryError):
                    continue  # of which `command.run` makes a sentence
                except Exception as fault:
                    status, written, said = None, '', repr(fault)
                if status not in (0, 1) or status and not said or has_controls(written):
                    found.append(f'{tool} {" ".join(words)}: {status}, {said[-200:]!r}, of {text[-300:]!r}')
        command.write(path, chain_of_forwards(CHAIN))
        status, _, said = run('tools/trace.py', path, '--packets')
        return found[:5] + ([] if status in (0, 1) and 'fault' not in said and 'Traceback' not in said else [f'a long chain: {status}, {said[-200:]}'])


def has_controls(text):
    return any(not char.isprintable() for char in text.replace('\n', ''))


def check_controls(program):
    """Control characters in a file, a file's name and a word are printed as what they are, by tools that read and by tools that play."""
    found = []
    with tempfile.TemporaryDirectory() as folder:
        for number, control in enumerate(CONTROLS[::3]):
            path = os.path.join(folder, f'{number}{control}.toml')
            own = command.read(path_of('cone_client'))
            for text in (own.replace('"next"', f'"next{control}"', 1), own.replace('"a"', f'"a{control}"'), f'# chain: {control}\n' + own + f'# expect: {control}\n',
                         own + f'"{control}" = 1\nx{control}', command.read(path_of('cone_client') + '.stdout').replace(' a ', f' a{control} ')):
                with open(path, 'w', encoding='utf-8', newline='') as file:
                    file.write(text)
                for tool, *words in HOSTILE_TOOLS:
                    if tool != 'page':  # whose text is the file's own, as JSON
                        _, written, said = run(f'tools/{tool}.py', path, '--program', program, *words)
                        found += [f'{tool} {words} on {text[:60]!r}: {line!r}' for line in (written + said).splitlines() if has_controls(line)]
            status, picture, said = run('tools/flow.py', path_of('cone_client') + '.stdout', '--svg')
            ElementTree.fromstring(picture)
    if command.shown('a\tb\x1b\u202e\U000e0001\n') != 'a b\\x1b\\u202e\\U000e0001\\x0a':
        found.append(command.shown('a\tb\x1b\u202e\U000e0001\n'))
    wrong = [line for line in ('0 0 0 tick a\x1b rs_cone', '0 0 0 tick A rs_cone', '0 0 0 tick a rs_cone \x1b', '0 0 0 tick a rs_cone is ::1%x', '0 0 0 deliver a b')
             if not refused(line)]
    return found[:5] + [f'{line!r} is read' for line in wrong]


def refused(line):
    try:
        return report.record_of(line) is None
    except command.Refusal:
        return True


def check_dear_texts(program):
    """What a text costs a process that may have as much memory, and no more."""
    found = []
    with tempfile.TemporaryDirectory() as folder:
        refuses, path = os.path.join(folder, 'refuses'), os.path.join(folder, 'dear.toml')
        command.write(refuses, REFUSES)
        os.chmod(refuses, 0o755)
        for name, text in DEAR.items():
            command.write(path, text)
            begun = time.monotonic()
            done = subprocess.run([sys.executable, '-B', os.path.join(TOP, 'tools', 'lint.py'), path, '--program', refuses], capture_output=True, text=True,
                                  preexec_fn=lambda: resource.setrlimit(resource.RLIMIT_AS, (DEAR_BYTES, DEAR_BYTES)), timeout=60)
            if done.returncode not in (1, 4) or not done.stdout + done.stderr or time.monotonic() - begun > DEAR_SECONDS:
                found.append(f'{name}: {done.returncode}, {time.monotonic() - begun:.1f} s, {done.stderr[-300:]}')
    return found
