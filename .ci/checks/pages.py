"""What a command says of itself.

- docs/COMMANDS.md: a section for each command of `./teredo --help`, which `COMMAND --help` shows without a build, in 80 columns.
- man: each word and each heading of a command's section, of what other pages say of it, and of each page that docs/ cite so,
  stands in its manual page; `man` shows each without a warning, where it is installed.
- completion: each command and each option of a tool, in bash, zsh and fish; in those that are installed, on a terminal.
"""
import fcntl
import glob
import os
import pty
import re
import select
import shutil
import signal
import struct
import subprocess
import tempfile
import termios
import time

import command
import man
from stored import TOP, run
from tally import skip

# How a page says that it, or a section of it, makes a manual page, and of which command. There were once so many.
MANUAL = re.compile(r'tools/man.py (docs/\w+\.md)(?: "([^"]+)")? --name (\w+)')
MANUALS_MIN = 1
# Of each shell how its completion names the commands, and the options of some of them; how it begins without files of its own, and with it.
SHELLS = {'bash': (re.compile("-W '(lab [a-z ]*)"), re.compile(r"^    ([a-z |]+)\) options='(.*)'", re.M)),
          'zsh': (re.compile('compadd -- (lab [a-z ]*)'), re.compile(r'^    ([a-z |]+)\) options=\((.*)\)', re.M)),
          'fish': (re.compile('^set -l words (lab [a-z ]*)', re.M), re.compile(r"^(?:__teredo_options|complete -c teredo -n '__teredo_of) ([a-z, ]+?)(?: |' -l )([a-z:-]+(?: [a-z:-]+)*)$", re.M))}
BARE = {'bash': ['--norc', '--noprofile', '-i'], 'zsh': ['-f', '-i'], 'fish': ['--no-config', '-i']}
BEGUN = {'bash': '. tools/completion.bash', 'zsh': 'autoload -U compinit; compinit -u -D; . tools/completion.zsh',
         'fish': 'source tools/completion.fish'}


def check_man(program):
    """Each page, of a command, of the format and as docs/ cite one: no word of it is lost, and `man` shows it without a warning."""
    made, found = man.pages(), []
    for name in man.names():
        file, section = man.MORE.get(name, (None, None))
        more = man.read(os.path.join(man.DOCS, file)) if file else ''
        text = man.section_of(man.read(man.COMMANDS), name) + (man.section_of(more, section) if section else more)
        found += faults_of_manual(text, made[f'teredo-{name}.{man.number_of(name)}'], name)
    found += faults_of_manual(man.read(os.path.join(man.DOCS, 'SCENARIOS.md')), made['teredo-scenario.5'], 'scenario')
    cited = 0
    for path in sorted(glob.glob(f'{TOP}/docs/*.md')):
        for page, section, name in MANUAL.findall(command.read(path)):
            text, cited = man.read(os.path.join(TOP, page)), cited + 1
            text = man.section_of(text, section) if section else text
            if text is None:
                found.append(f'{path}: {page} has no section {section}')
                continue
            made[f'{name}-cited-{cited}.1'] = man.manual(text, name)
            found += faults_of_manual(text, made[f'{name}-cited-{cited}.1'], name)
    return found + warnings_of(made) + ([] if cited >= MANUALS_MIN else [f'only {cited} pages are cited'])


def faults_of_manual(page, lines, name):
    made = '\n'.join(lines)
    for roff, char in (('\\-', '-'), ('\\(aq', "'"), ('\\(dq', '"'), ('\\(ha', '^'), ('\\(ga', '`'), ('\\(ti', '~'), ('\\e', '\\')):
        made = made.replace(roff, char)
    made = re.sub(r'\\\[u(\w+)\]', lambda code: chr(int(code[1], 16)), made)
    rest = re.sub(r'\]\([^)]*\)|^```\w+', ']', page, flags=re.M)  # links lead nowhere in a manual page
    lost = sorted(set(re.findall(r'\w{2,}', rest.lower())) - set(re.findall(r'\w+', re.sub(r'\\f[BIR]', ' ', made).lower())))
    heads = len(re.findall('^##+ ', page, re.M))
    return ([f'the manual page of {name} has lost {lost}'] if lost else []) + (
        [] if len(re.findall(r'^\.S[HS] ', made, re.M)) >= heads + 1 else [f'that of {name} has lost a heading'])


def warnings_of(made):
    """What `man` has to say of pages, at three widths."""
    if not shutil.which('man') or not shutil.which('groff'):
        skip('how man shows its pages', 'there is no man, or no groff')
        return []
    found = []
    with tempfile.TemporaryDirectory() as folder:
        for name, lines in made.items():
            command.write(os.path.join(folder, name), '\n'.join(lines) + '\n')
            width = ('60', '80', '120')[len(name) % 3]
            shown = subprocess.run(['man', '--warnings=w', '-E', 'UTF-8', '-l', os.path.join(folder, name)], stdout=subprocess.PIPE,
                                   stderr=subprocess.PIPE, env={**os.environ, 'MANWIDTH': width, 'MAN_KEEP_STDERR': '1'}, timeout=60)
            if shown.returncode or shown.stderr or len(shown.stdout) < 500:
                found.append(f'man {name}: {shown.returncode}, {shown.stderr.decode()[:300]}')
    return found


def check_completion(program):
    """Each command and each option of a tool is completed, in each shell; and in those that are installed, on a terminal."""
    found = []
    for shell, (of_commands, of_options) in SHELLS.items():
        told = command.read(os.path.join(TOP, 'tools', f'completion.{shell}'))
        completed = of_commands.search(told)[1].split()
        found += [f'{shell}: the command {name} is not completed' for name in man.names() if name not in completed]
        for name in man.names():
            script = man.script_of(name)
            wanted_options = set(re.findall(r'^  --([\w-]+)', run(os.path.relpath(script, TOP), '--help')[1], re.M)) if script else set()
            of_name = [part.removeprefix('--').partition(':')[0] for names, options in of_options.findall(told) if name in re.findall(r'\w+', names)
                       for part in options.split()]
            found += [f'{shell}: {name} --{option} is not completed' for option in sorted(wanted_options - set(of_name))]
    for shell in SHELLS:
        if shutil.which(shell):
            found += faults_of_shell(shell)
        else:
            skip(f'completion in {shell}', 'it is not installed')
    return found


def faults_of_shell(shell):
    found = []
    for typed, due in (('./teredo tra\t', './teredo trace '), ('./teredo flow --sv\t', './teredo flow --svg '),
                       ('./teredo lab examples/scenarios/cone_cl\t', './teredo lab examples/scenarios/cone_client.toml'),
                       ('./teredo pairs --scenario symm\t', './teredo pairs --scenario symmetric '),
                       ('./teredo pairs --scenario cone nat\t', './teredo pairs --scenario cone native '), ('./teredo help qual\t', './teredo help qualify ')):
        shown = typed_in(shell, typed, due)
        if due not in shown:
            found.append(f'{typed!r} in {shell} shows {shown[-200:]!r}')
    return found


def typed_in(shell, typed, due):
    """What a shell on a terminal shows, that has the completion, when this is typed."""
    pid, ours = pty.fork()
    if pid == 0:
        os.chdir(TOP)
        os.execvpe(shell, [shell, *BARE[shell]], {**os.environ, 'TERM': 'dumb', 'PS1': '> ', 'HISTFILE': '/dev/null', 'HOME': '/nonexistent'})
    fcntl.ioctl(ours, termios.TIOCSWINSZ, struct.pack('HHHH', 50, 200, 0, 0))
    os.write(ours, f'{BEGUN[shell]}; echo is-ready\n'.encode())
    shown, until, is_typed = '', time.monotonic() + 20, False
    while time.monotonic() < until and due not in plain(shown).rpartition('is-ready')[2]:
        if select.select([ours], [], [], 0.2)[0]:
            shown += os.read(ours, 65536).decode('utf-8', 'replace')
        if not is_typed and plain(shown).count('is-ready') > 1:
            os.write(ours, typed.encode())
            is_typed = True
    os.kill(pid, signal.SIGKILL)
    os.waitpid(pid, 0)
    os.close(ours)
    return plain(shown)


def plain(shown):
    """What stands on a terminal, without what steers it."""
    return re.sub(r'\x1b\[[0-9;?]*[A-Za-z]|\x1b[=>(][A-Z0-9]?|\x1b\][^\x07]*\x07|[\x07\r]', '', shown)


def check_commands(program):
    """docs/COMMANDS.md has a section for each command of ./teredo, with its words, and no other."""
    wide = {**os.environ, 'COLUMNS': '300'}
    usage = subprocess.run([os.path.join(TOP, 'teredo'), '--help'], stdout=subprocess.PIPE, timeout=60, env=wide).stdout.decode()
    told = dict(re.findall(r'^\./teredo ([a-z]+)(.*?)(?: {2,}.*| {3}.*)?$', usage, re.M))
    page = command.read(os.path.join(TOP, 'docs', 'COMMANDS.md'))
    sections = dict(re.findall(r'^## (.*)\n\n```text\nteredo \1(.*)\n', page, re.M))
    if sorted(told) != sorted(re.findall('^## (.*)$', page, re.M)) or sorted(told) != sorted(sections):
        return [f'./teredo --help has {sorted(told)}, and docs/COMMANDS.md {sorted(sections)}']
    found = [f'{name}: ./teredo --help has{told[name]}, and docs/COMMANDS.md{sections[name]}' for name in told
             if re.findall('[A-Z]+[0-9]?', told[name]) != re.findall('[A-Z]+[0-9]?', sections[name])[:len(re.findall('[A-Z]+[0-9]?', told[name]))]]
    for name in told:
        shown = subprocess.run([os.path.join(TOP, 'teredo'), name, '--help'], stdout=subprocess.PIPE, stderr=subprocess.DEVNULL, timeout=60)
        widest = max(map(len, shown.stdout.decode().splitlines()), default=0)
        if shown.returncode or len(shown.stdout.splitlines()) < 5 or widest > 80:
            found.append(f'./teredo {name} --help: {shown}')
    return found
