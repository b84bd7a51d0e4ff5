"""What the package holds beside its files: that its pages lead into it, what it says of the gate, and how its service behaves.

- leads: each link of a page leads to a file of the package, and so does each file of docs/, examples/, tests/, bench/ and tools/ that a page names.
- names: docs/COMMANDS.md names each manual page, and docs/SERVE.md shows lines of the unit as the unit has them.
- refuses: a gate's line that isn't one or says that something failed, another commit, another sum, a program that is none.
- runs: what docs/TESTING.md leads to runs as it was unpacked.
- loads: the rules for the firewall may be loaded twice, keep their counts, and leave the limit alone.
- renews: the package's scripts begin a server anew at an upgrade, and end it at a removal alone.
"""
import glob
import hashlib
import os
import re
import shutil
import subprocess
import sys
import tempfile

import booted
from tally import skip

TOP = os.path.dirname(os.path.dirname(os.path.dirname(os.path.abspath(__file__))))
LIB = 'usr/lib/teredo'
# What a page may name that a checkout alone has.
OF_CHECKOUT = ('tools/package.py', 'tools/build.py', 'tools/service/', 'tests/worked')
NAMED = re.compile(r'\b(?:docs|examples|tests|bench|tools)/[\w./-]*\w\.\w+')
LINKED = re.compile(r'\]\(([^)\s:#]+)(?:#[^)\s]*)?\)')
COUNTED = 'import socket; socket.socket(2, 2).sendto(bytes(1), ("127.0.0.1", 3544))'
LIMIT = 60


def run(*words, **how):
    """The status of a run, and what it wrote."""
    done = subprocess.run(words, **({'stdin': subprocess.DEVNULL} | how), stdout=subprocess.PIPE, stderr=subprocess.STDOUT, timeout=LIMIT)
    return done.returncode, done.stdout.decode('utf-8', 'replace')


def read(*parts):
    with open(os.path.join(*parts), encoding='utf-8') as file:
        return file.read()


def leads(made):
    found, root = [], os.path.join(made.root, LIB)
    for page in sorted(glob.glob(f'{root}/*.md') + glob.glob(f'{root}/*/*.md')):
        text = read(page)
        wanted = {os.path.join(os.path.dirname(page), path) for path in LINKED.findall(text)}
        wanted |= {os.path.join(root, path) for path in NAMED.findall(text) if 'NAME' not in path and not path.startswith(OF_CHECKOUT)}
        found += [f'{os.path.relpath(page, root)} leads to {os.path.relpath(path, root)}, which the package hasn\'t'
                  for path in sorted(wanted) if not os.path.exists(path)]
    return found


def names(made):
    page, commands = read(TOP, 'docs', 'SERVE.md'), read(TOP, 'docs', 'COMMANDS.md')
    told = re.search(r'^Manual pages: (.*)$', commands, re.M)
    words = set(re.findall(r'`(\w+)`', told[1]) + re.findall(r'teredo-(\w+)\(', told[1])) if told else set()
    wanted = {os.path.basename(path).removeprefix('teredo-').partition('.')[0] for path in glob.glob(f'{made.root}/usr/share/man/*/teredo-*')}
    unit = read(made.root, 'usr/lib/systemd/system/teredo.service').splitlines()
    shown = re.search(r'^```ini\n(\[Unit\]\nDescription=.*?)^```', page, re.M | re.S)
    other = [line for line in (shown[1].splitlines() if shown else ['no unit']) if line and line not in unit]
    return ([f'docs/COMMANDS.md has the manual pages {sorted(words)}, and the package {sorted(wanted)}'] if words != wanted else []) + [
        f'docs/SERVE.md shows {line!r}, which the unit hasn\'t' for line in other]


def told_of(made, *words):
    """The status of a package that is made with these words, and what PROVED says, or the refusal."""
    with tempfile.TemporaryDirectory() as folder:
        status, said = run(sys.executable, '-B', os.path.join(TOP, 'tools', 'package.py'), '--out', folder, *words)
        archive = glob.glob(f'{folder}/*.tar.gz')
        if status or not archive:
            return status, said
        return status, run('tar', '-xOzf', archive[0], '--wildcards', f'*/{LIB}/PROVED')[1]


def refuses(made):
    program = os.path.join(made.root, LIB, 'teredo_cli')
    commit = run('git', '-C', TOP, 'rev-parse', 'HEAD')[1].strip()
    is_changed = run('git', '-C', TOP, 'status', '--porcelain')[1] != ''
    with open(program, 'rb') as file:
        total = hashlib.sha256(file.read()).hexdigest()
    gate = ('--program', program, '--gate', '12 passed, 0 failed, 1 skipped')
    whole = (*gate, '--commit', commit, '--sum', total)
    rows = [(('--program', program, '--gate', line), 1, 'wants the last line') for line in ('', 'it passed', '0 passed, 0 failed', '12 passed, 1 failed')]
    rows += [(('--program', os.path.join(TOP, 'teredo')), 1, 'no ELF program'), (('--program', program, '--sum', total), 2, 'there is no --gate'),
             ((*gate, '--commit', '0' * 40), 1, 'the gate ran on'), ((*gate, '--sum', '0' * 64), 1, 'the gate left a program'),
             (('--program', program), 0, 'No line of the gate was given'), ((*gate, '--sum', total), 0, 'did not say the commit'),
             (whole, 1 if is_changed else 0, 'with changes' if is_changed else 'It ran on this commit, and left this program')]
    found = []
    for words, status, due in rows:
        got = told_of(made, *words)
        if got[0] != status or due not in got[1]:
            found.append(f'package {" ".join(words[2:])}: {got[0]}, {got[1][-300:]!r}')
    return found


def runs(made):
    """As unpacked, with a PATH of a few commands."""
    found = []
    for words, due in ((['examples/nats.py', '--rules'], 'symmetric'), (['tests/vectors.py', '--check'], ''), (['tests/nested.py', '--scenario', 'port', 'cone'], '# chain: '),
                       (['tools/pairs.py', '--scenario', 'port:cone', 'restricted'], '# chain: ')):
        status, said = run(os.path.join(made.bin, 'python3'), '-B', os.path.join(made.root, LIB, words[0]), *words[1:], env={'PATH': made.bin}, cwd=made.folder)
        if status or due not in said or 'Traceback' in said:
            found.append(f'{" ".join(words)}: {status}, {said[-300:]!r}')
    return found


def loads(made):
    if not shutil.which('nft') or os.geteuid() != 0:
        skip('how the rules of the firewall are loaded again', 'it wants nft, as root')
        return []
    rules = os.path.join(made.root, LIB)
    once = f'nft -f {rules}/limit.nft && nft -f {rules}/firewall.nft'
    script = (f'ip link set lo up && {once} && {sys.executable} -c \'{COUNTED}\' && nft list counter inet teredo asked && {once} && '
              f'nft -f {rules}/firewall.nft && nft list counter inet teredo asked && nft list table inet teredo_limit && nft list table inet teredo')
    status, said = run('unshare', '-n', 'sh', '-c', script)
    wanted = {'packets 1 bytes': 3, 'udp dport 3544 update': 1, 'udp dport 3544 fib': 1, 'udp dport 3544 counter': 1, ' drop': 5}
    counts = {text: said.count(text) for text in wanted}
    return [] if status == 0 and counts == wanted else [f'{status}, {counts}: {said[-600:]}']


def renews(made):
    """The scripts, with commands in the place of systemd's that write down how they are called."""
    found = []
    for script, words, due in (('postinst', ['configure', '0.0.1'], 'daemon-reload|try-restart teredo.service'), ('postinst', ['configure', ''], 'daemon-reload'),
                               ('prerm', ['upgrade', '0.0.2'], ''), ('prerm', ['remove'], 'disable --now teredo.service teredo-probe.timer')):
        got = asked_of_systemd(made, script, *words)
        if got != due:
            found.append(f'{script} {" ".join(words)} asks for {got!r}, and {due!r} is due')
    return found


def asked_of_systemd(made, script, *words):
    with tempfile.TemporaryDirectory() as folder:
        for name in ('systemctl', 'deb-systemd-invoke'):
            path = os.path.join(folder, name)
            with open(path, 'w', encoding='utf-8') as file:
                file.write(f'#!/bin/sh\necho "$*" >>{folder}/asked\n')
            os.chmod(path, 0o755)
        text = read(TOP, 'tools', 'service', script).replace('/run/systemd/system', folder)
        status, said = run('sh', '-c', text, script, *words, env={'PATH': f'{folder}:{os.environ["PATH"]}'})
        asked = os.path.join(folder, 'asked')
        return '|'.join(read(asked).splitlines()) if status == 0 and os.path.exists(asked) else said if status == 0 else f'status {status}: {said}'


CHECKS = (leads, names, refuses, runs, loads, renews, booted.boots)
