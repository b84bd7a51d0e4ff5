"""./teredo itself: words that it answers, no `rt`, an unproved answer and none, a build that fails and one that passes, with an
`rt` that is a script of this check. Of each of many words it refuses those that the program refuses, and says why. The chain of a
scenario is found as the tools find it. A reader that has enough makes no noise, and on a terminal drops alone are red, of tools too.
A trial says there how long it takes so far.
"""
import itertools
import os
import pty
import re
import shutil
import signal
import subprocess
import sys
import tempfile

import build
import fates
import chains
import command
import report
from stored import TOP, path_of, paths
from tally import skip

# Words of ./teredo, the status, and how its output and what it says on standard error begin; the last where there is no rt.
ANSWERED = (([], 2, 'words\n', './teredo lab'), (['--help'], 0, './teredo lab', ''), (['-h'], 0, './teredo lab', ''),
            (['help'], 0, './teredo lab', ''), (['nonsense'], 2, 'words\n', 'teredo: there is no word nonsense; ./teredo --help'),
            (['lap'], 2, 'words\n', 'teredo: there is no word lap; did you mean lab?'),
            (['lba'], 2, 'words\n', 'teredo: there is no word lba; did you mean lab?'),
            (['TRACE'], 2, 'words\n', 'teredo: there is no word TRACE; ./teredo --help'),
            (['serv', 'x'], 2, 'words\n', 'teredo: there is no word serv; did you mean serve?'),
            (['help', 'lab'], 0, '  teredo lab FILE', ''), (['help', 'trace'], 0, 'usage: ./teredo trace ', ''),
            (['help', 'pairs'], 0, 'usage: ./teredo pairs ', ''), (['help', 'lap'], 2, 'words\n', 'teredo: there is no word lap; did you mean lab?'),
            (['--version'], 0, 'teredo 0.', ''), (['lab', '--help'], 0, '  teredo lab FILE', ''),
            (['lab'], 2, 'words\n', 'teredo: lab wants one FILE'), (['serve', '127.0.0.1'], 2, 'words\n', 'teredo: serve wants'),
            (['gen', '07', '1'], 2, 'words\n', "teredo: SEED has no zeros in front: '07'"),
            (['gen', '7', '50001'], 2, 'words\n', 'teredo: COUNT is at most 50000, and 50001 is more'),
            (['serve', '127.0.0.1', '127.0.0.1', '1', '1'], 2, 'words\n', 'teredo: IP1 and IP2 are two addresses, and both are 127.0.0.1'),
            (['serve', '127.0.0.1', '127.0.0.2', '1000000001', '1'], 2, 'words\n', 'teredo: COUNT is at most 1000000000, and 1000000001 is'),
            (['serve', '127.0.0.1', '127.0.0.2', '1', '0'], 2, 'words\n', 'teredo: IDLES is at least 1'),
            (['audit', '192.0.2.01', '192.0.2.2', '/'], 2, 'words\n', "teredo: IP1 has no zeros in front of a number: '192.0.2.01'"),
            (['lab', '/nowhere'], 4, '', 'teredo: /nowhere: there is no such file'),
            (['lab', '/'], 4, '', "teredo: /: can't be read"), (['trace', '/nowhere'], 4, '', './teredo trace: /nowhere: No such file'),
            (['serve', '127.0.0.1', '127.0.0.2', '0', '1'], 125, '', "teredo: the program isn't built from these sources, and `serve` is"),
            (['show', '6'], 125, '', "teredo: the program isn't built, and there is no command rt on the PATH"))
# An `rt` that proves nothing: a trial that answers, one without an answer, a build that fails, and one that passes.
RT_TRIES = ('#!/bin/sh\necho "a line"\necho "teredo_cli: s: a hint" >&2\necho "checked: ended status=3" >&2\n'
            'echo "run=ended status=3 runners=1 proved=no" >&2\nexit 3\n')
RT_TRIES_LONG = ('#!/bin/sh\necho "checked: no-answer: the program wrote more than 1048576 bytes to standard output" >&2\n'
                 'echo "run=no-answer proved=no" >&2\nexit 6\n')
RT_TRIES_SLOWLY = RT_TRIES.replace('echo "a line"', 'sleep 2.5')
RT_TRIES_NOTHING = '#!/bin/sh\necho "src/main.rt:1:1: error[a-word]: a reason" >&2\necho "run=none proved=no" >&2\nexit 2\n'
RT_FAILS = '#!/bin/sh\nprintf "== td_base\\n== bubble\\na reason\\n== summary\\ntd_base: ok\\nbubble: failed (1)\\n"\nexit 1\n'
RT_PASSES = ('#!/bin/sh\n[ "$1" = run ] || exec printf "== td_base\\n== summary\\ntd_base: ok\\n"\nmkdir -p out\nprintf "#!/bin/sh\\necho played\\n" >out/teredo_cli\n'
             'chmod +x out/teredo_cli\n')
# Words for each place of a command, right ones and wrong ones; each command is tried with one of them after the other.
ADDRESSES = ('192.0.2.1', '255.255.255.255', '0.0.0.0', '256.0.0.1', '1.2.3', '1.2.3.4.5', '1.2.3.04', '1.2.3.', '', 'a.b.c.d', '1.2.3.4 ',
             '-1.2.3.4', '1.2.3.00')
NUMBERS = ('0', '1', '00', '01', '-1', '+1', '', ' 1', '1e3', '50000', '50001', '1000000000', '1000000001', '9223372036854775807',
           '9223372036854775808', '10000000000000000000', '99999999999999999999999', '\u0661')
TRIED = (['gen', ('0',), NUMBERS], ['gen', NUMBERS, ('0',)], ['audit', ADDRESSES, ('192.0.2.9',), ('/dev/null',)],
         ['audit', ('192.0.2.9',), ADDRESSES, ('/dev/null',)], ['audit', ('1.1.1.1',), ('1.1.1.1',), ('/dev/null',)])
# Words whose right ones would open sockets: the wrong ones alone are tried.
REFUSED = (['serve', ADDRESSES[3:], ('192.0.2.9',), ('0',), ('1',)], ['serve', ('192.0.2.1',), ('192.0.2.9',), NUMBERS[2:9] + NUMBERS[12:], ('1',)],
           ['serve', ('192.0.2.1',), ('192.0.2.9',), ('0',), ('0', *NUMBERS[2:9], *NUMBERS[12:])],
           ['qualify', ADDRESSES[3:], ('192.0.2.1',), ('192.0.2.2',), ('1',), ('1',)],
           ['qualify', ('127.0.0.1',), ('192.0.2.1',), ('192.0.2.1',), ('1',), ('1',)],
           ['qualify', ('127.0.0.1',), ('192.0.2.1',), ('192.0.2.2',), NUMBERS[2:9] + NUMBERS[14:], ('1',)],
           ['qualify', ('127.0.0.1',), ('192.0.2.1',), ('192.0.2.2',), ('1',), ('0', *NUMBERS[2:9], *NUMBERS[12:])])
# Texts that say a chain, or none, in one way or another.
SAYING = ('', 'seed = 1\n', '# chain: n1:n2\n', 'seed = 1\n \t#\tchain:n1:n2 \t\r\n# chain: -\n', 'seed = 1 # chain: n1:n2\n', '#chain:\n', '# chain: a b \n',
          '## chain: n1:n2\n# chain: n3:n4', '# Chain: n1:n2\n# chain : x\n', '\u2003# chain: a\n#\u2003chain: b\n# chain: c\u2003\n', '# chain: chain: a\n',
          '# chain: \t \r\n', '# chain: $(echo x) `y` * \\\n')


def answer(folder, path, words, **env):
    """What ./teredo in a folder answers, with a PATH."""
    done = subprocess.run([os.path.join(folder, 'teredo'), *words], stdin=subprocess.DEVNULL, stdout=subprocess.PIPE,
                          stderr=subprocess.PIPE, env={'PATH': path, 'TMPDIR': folder, **env}, timeout=60)
    return done.returncode, done.stdout.decode(), done.stderr.decode()


def put_rt(folder, text):
    with open(os.path.join(folder, 'rt'), 'w', encoding='utf-8') as file:
        file.write(text)
    os.chmod(file.name, 0o755)


def put_wrapper(folder):
    """./teredo in a folder, with all that it reads and a folder for each crate."""
    for name in ('teredo', 'crates.txt', 'VERSION'):
        shutil.copy(os.path.join(TOP, name), folder)
    for name in build.needs(command.read(os.path.join(TOP, 'crates.txt'))):
        os.makedirs(os.path.join(folder, 'crates', name))
    for name in ('docs', 'examples', 'tests'):
        os.symlink(os.path.join(TOP, name), os.path.join(folder, name))
    shutil.copytree(os.path.join(TOP, 'tools'), os.path.join(folder, 'tools'))


def put_program(folder, program):
    """The built program, as ./teredo in a folder looks for it."""
    out = os.path.join(folder, 'crates', 'teredo_cli', 'out')
    os.makedirs(out, exist_ok=True)
    shutil.copy(program, os.path.join(out, 'teredo_cli'))
    command.write(os.path.join(out, 'teredo.built'), '')


def plain_path():
    return f'{os.path.dirname(sys.executable)}:/usr/bin:/bin'


def check_wrapper(program):
    found, path = [], plain_path()
    with tempfile.TemporaryDirectory() as folder:
        put_wrapper(folder)
        if shutil.which('rt', path=path):
            skip('./teredo where there is no rt', 'rt stands where Python does, or the system\'s commands')
        for words, status, written, said in ANSWERED[:-1] if shutil.which('rt', path=path) else ANSWERED:
            got = answer(folder, path, words)
            if got[0] != status or not got[1].startswith(written) or not got[2].startswith(said):
                found.append(f'./teredo {" ".join(words)}: {got}')
        return found + faults_of_trials(folder, f'{folder}:{path}') + faults_of_builds(folder, f'{folder}:{path}')


def faults_of_trials(folder, path):
    """Unproved answers: the output and the status as they are, said to be unproved; and none where none may be."""
    found, played = [], ['lab', path_of('cone_client')]
    put_rt(folder, RT_TRIES)
    got = answer(folder, path, played)
    if got[:2] != (3, 'a line\n') or 'NOTHING OF THIS ANSWER IS PROVED' not in got[2] or 'a hint' not in got[2] or 'run=' in got[2]:
        found.append(f'an unproved answer: {got}')
    for words, env in ((played, {'TEREDO_PROVED': '1'}), (['check', path_of('cone_client')], {}), (['lint', *played[1:] * 2], {})):
        got = answer(folder, path, words, **env)
        if got[0] != 125 or got[1] or './teredo build' not in got[2]:
            found.append(f'./teredo {words} {env}, nothing built: {got}')
    own = os.path.join(folder, 'own.toml')
    command.write(own, command.read(path_of('cone_client')) + '# my own\n')
    got = answer(folder, path, ['trace', own])
    if got[0] != 1 or 'NOTHING OF THIS ANSWER IS PROVED' not in got[2] or 'a line' not in got[2]:
        found.append(f'a tool over an unproved answer: {got}')
    got = answer(folder, path, ['trace', path_of('two_homes'), '--packets'])
    if got[0] or 'lost at a, give_up' not in got[1] or 'NOTHING OF THIS ANSWER IS PROVED' in got[2]:
        found.append(f'an example, nothing built: {got}')
    put_rt(folder, RT_TRIES_SLOWLY)
    for words in (played, ['trace', own]):
        shown = on_terminal([f'{folder}/teredo', *words], {'PATH': path, 'TMPDIR': folder, 'TERM': 'xterm'})
        if not re.search(r'\rteredo: [1-9]\d* s so far', shown) or subprocess.run(['pgrep', '-f', f'{folder}/teredo'], stdout=subprocess.DEVNULL).returncode == 0:
            found.append(f'a slow trial on a terminal: {shown!r}')
    if 'so far' in answer(folder, path, played)[2]:
        found.append('a trial tells its seconds to nobody')
    put_rt(folder, RT_TRIES_LONG)
    got = answer(folder, path, played)
    if got[:2] != (125, '') or 'at most 1 MiB' not in got[2]:
        found.append(f'a trial without an answer: {got}')
    put_rt(folder, RT_TRIES_NOTHING)
    got = answer(folder, path, played)
    if got[:2] != (125, '') or 'error[a-word]: a reason' not in got[2] or "can't be run" not in got[2] or 'run=' in got[2]:
        found.append(f'sources that cannot be run: {got}')
    return found


def faults_of_builds(folder, path):
    found = []
    put_rt(folder, RT_FAILS)
    status, written, said = answer(folder, path, ['build'])
    log = re.search(r'all that rt said is in (\S+)', said)
    if (status != 125 or written or 'td_base is done' not in said or 'a reason\n./teredo build: bubble could not be built' not in said
            or not log or 'a reason' not in command.read(log[1])):
        found.append(f'a build that fails: {status}, {written!r}, {said!r}')
    put_rt(folder, RT_PASSES)
    status, written, said = answer(folder, path, ['build'])
    if (status, written) != (0, '') or not re.search(r'td_base is done; \d+ of \d+ are left, .*all \d+ crates are proved; .*built in', said, re.S):
        found.append(f'a build that passes: {status}, {written!r}, {said!r}')
    got = answer(folder, path, ['show', '6'], TEREDO_PROVED='1')
    if got != (0, 'played\n', ''):
        found.append(f'the built program: {got}')
    put_rt(folder, '#!/bin/sh\nexec sleep 30\n')
    process = subprocess.Popen([os.path.join(folder, 'teredo'), 'build'], stderr=subprocess.PIPE, start_new_session=True,
                               env={'PATH': path, 'TMPDIR': folder})
    process.stderr.readline()  # that it begins
    os.killpg(process.pid, signal.SIGINT)
    said = process.communicate(timeout=60)[1].decode()
    return found if process.returncode == 125 and 'interrupted after' in said else found + [f'a build that is interrupted: {said}']


def check_refusals(program):
    """./teredo and the program refuse the same words; the first says why."""
    found = []
    with tempfile.TemporaryDirectory() as folder:
        put_wrapper(folder)
        put_program(folder, program)
        for words in [list(words) for line in TRIED + REFUSED for words in itertools.product((line[0],), *line[1:])]:
            own = subprocess.run([program, *words], stdout=subprocess.PIPE, stderr=subprocess.DEVNULL, timeout=60)
            got = answer(folder, plain_path(), words)
            if got[:2] != (own.returncode, own.stdout.decode()) or own.returncode == 2 and not got[2].startswith('teredo: '):
                found.append(f'{words}: the program answers {own.returncode}, and ./teredo {got}')
        found += faults_of_pipes(folder) + faults_of_audits(folder) + faults_of_reach(folder, program)
    return found


def faults_of_reach(folder, program):
    """Without a chain, that of the scenario, or none; the words with one are the program's."""
    found = []
    for name in ('two_homes', 'tree_of_nats', 'two_port_restricted'):
        path = path_of(name)
        chain = chains.chain_of(command.read(path)) or '-'
        own = subprocess.run([program, 'reach', path, chain], stdout=subprocess.PIPE, timeout=60)
        for words in (['reach', path], ['reach', path, chain]):
            got = answer(folder, plain_path(), words)
            if got[:2] != (own.returncode, own.stdout.decode()) or own.returncode:
                found.append(f'{words}: {got}, and the program answers {own}')
    return found


def check_said_chains(program):
    """Where `reach` is given no chain: the one that the scenario says, as tools/chains.py reads it, or -. What is no file has to say it."""
    found = []
    shell = f'. {TOP}/tools/words.sh; refuse() {{ echo "$1"; exit 2; }}; find_chain "$0"; printf "%s" "$chain"'
    with tempfile.TemporaryDirectory() as folder:
        for text in (*SAYING, *map(command.read, paths().values())):
            path, said = os.path.join(folder, 'own.toml'), chains.chain_of(text)
            command.write(path, text)
            for name, given in ((path, None), ('/dev/stdin', path)):
                with open(given or os.devnull, encoding='utf-8') as file:
                    done = subprocess.run(['bash', '-c', shell, name], stdin=file, stdout=subprocess.PIPE, timeout=60)
                if done.returncode or done.stdout.decode() != ('-' if said is None else said):
                    found.append(f'{text[:60]!r}: {done.returncode}, {done.stdout}, not {said!r}')
    for name, status in (('/dev/stdin', 2), ('/nowhere', 0), ('/', 0), ('-', 0)):
        done = subprocess.run(['bash', '-c', shell, name], input=b'# chain: n1:n2\n', stdout=subprocess.PIPE, timeout=60)
        if done.returncode != status or status == 0 and done.stdout != b'-':
            found.append(f'{name}: {done.returncode}, {done.stdout}')
    return found


def faults_of_audits(folder):
    """An audit that judged something, and one of a server that the capture doesn't have, which says so."""
    found, wire = [], os.path.join(folder, 'wire.pcap')
    with open(wire, 'wb') as file:
        subprocess.run([f'{folder}/teredo', 'wire', path_of('cone_client')], stdout=file, timeout=60)
    for pair, status in ((('192.0.2.1', '192.0.2.2'), 0), (('203.0.113.1', '203.0.113.2'), 13)):
        got = answer(folder, plain_path(), ['audit', *pair, wire])
        if got[0] != status or not got[1].startswith('clean packets') or ('nothing was judged' in got[2]) != (status == 13):
            found.append(f'audit {pair}: {got}')
    return found


def faults_of_pipes(folder):
    """A reader that has enough, and a terminal with colours and without."""
    words, found = ['lab', path_of('full_peer_list')], []
    script = f'{folder}/teredo {" ".join(words)} | head -n 1; {sys.executable} {folder}/tools/flow.py {words[1]}.stdout | head -n 1'
    done = subprocess.run(['bash', '-c', script], stdout=subprocess.PIPE, stderr=subprocess.PIPE, timeout=60)
    if done.stderr or len(done.stdout.splitlines()) != 2:
        found.append(f'{script}: {done.stdout!r}, {done.stderr!r}')
    drops = sum(fates.is_drop(record.fate) for record in report.Report(command.read(words[1] + '.stdout')).records)
    for env, due in (({}, drops), ({'NO_COLOR': '1'}, 0)):
        shown = on_terminal([f'{folder}/teredo', *words], {'PATH': plain_path(), 'TERM': 'xterm', **env})
        if shown.count('\x1b[31m') != due or re.sub('\x1b\\[\\d+m|\r', '', shown) != command.read(words[1] + '.stdout'):
            found.append(f'on a terminal with {env}: {shown.count(chr(27))} of {due}, {shown[:200]!r}')
    return found


def check_colours(program):
    """Tools that tell of fates: on a terminal drops are red and nothing else is; with NO_COLOR, and into a pipe, nothing is."""
    found, path = [], path_of('two_port_restricted')
    for tool, *words in (['trace', f'{path}.stdout'], ['flow', f'{path}.stdout'], ['flow', '--narrow', f'{path}.stdout'], ['explore', '--event', '4', path],
                         ['trace', '--event', '4', f'{path}.stdout'], ['trace', '--packets', path_of('lost_mapping') + '.stdout'], ['play', path]):
        call = [sys.executable, '-B', os.path.join(TOP, 'tools', f'{tool}.py'), *words, *(['--program', program] if words[-1] == path else [])]
        piped = subprocess.run(call, stdin=subprocess.DEVNULL, stdout=subprocess.PIPE, timeout=60).stdout.decode()
        for env, has_red in (({'TERM': 'xterm'}, True), ({'TERM': 'xterm', 'NO_COLOR': '1'}, False), ({'TERM': 'dumb'}, False)):
            shown = on_terminal(call, {'PATH': plain_path(), 'COLUMNS': '300', **env}, subprocess.DEVNULL, subprocess.DEVNULL).replace('\r', '')
            if re.sub('\x1b\\[\\d+m', '', shown) != piped or ('\x1b[31m' in shown) != has_red or has_red and not reds(shown):
                found.append(f'{tool} {words} with {env}: {shown[:300]!r}, and piped {piped[:200]!r}')
    return found


def reds(shown):
    """Whether all that is red tells of a drop."""
    words = re.findall('\x1b\\[31m(.*?)\x1b\\[0m', shown)
    known = {'lost', *(fate for fate in fates.FATES if fates.is_drop(fate))}
    return words and all(set(re.findall(r'\w+', word)) & known or '!' in word or 'never delivered' in word for word in words)


def on_terminal(words, env, stdin=None, stderr=None):
    """What words write on a terminal."""
    ours, theirs = pty.openpty()
    process = subprocess.Popen(words, stdin=stdin or theirs, stdout=theirs, stderr=stderr or theirs, env=env)
    os.close(theirs)
    shown = b''
    while True:
        try:
            piece = os.read(ours, 65536)
        except OSError:  # nobody has the other side any more
            piece = b''
        if not piece:
            break
        shown += piece
    os.close(ours)
    process.wait(timeout=60)
    return shown.decode()
