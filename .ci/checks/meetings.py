"""`meet`: the word of two answers of `qualify`.

- Each two of the lines by hand below have the words that the rules give them; what is no such line is refused with a sentence.
- Of two clients that have just qualified, behind each two kinds of NATs, with NATs of their own, of one carrier or of each its own, or
  behind one NAT, with the cone phase and without, of one server or of two, `reach` of the built program says the same. Of one that had
  asked before, and that its NAT made take itself for cone, it says another word: such an answer isn't for `meet`.
- So do two answers of the built program itself, beside its server on loopback.
"""
import collections
import itertools
import os
import subprocess
import tempfile

import command
import loopback
import matrix
import meet
import report
from scenario import Scenario
from stored import TOP, run

KINDS = ('cone', 'restricted', 'port', 'symmetric')
SYMMETRIC, OFFLINE, UNDECIDED = 'symmetric sent 5 failed 0', 'offline sent 6 failed 0', 'undecided sent 2 failed 1'
# 192.0.2.1 and .3 are c000:201 and c000:203; 198.51.100.1 and .2 inverted 39cc:9bfe and 39cc:9bfd, ports 1024 and 1025 fbff and fbfe.
CONE, PLAIN = ('2001:0:c000:201:8000:fbff:39cc:9bfe', '2001:0:c000:201:0:fbff:39cc:9bfe')
OTHER_CONE, OTHER_PLAIN = ('2001:0:c000:203:8000:fbff:39cc:9bfd', '2001:0:c000:203:0:fbff:39cc:9bfd')
BESIDE_CONE, BESIDE_PLAIN = ('2001:0:c000:201:8000:fbfe:39cc:9bfe', '2001:0:c000:201:0:fbfe:39cc:9bfe')
SAME_SERVER, SAME_NAT = ('2001:0:c000:201:0:fbff:39cc:9bfd', '2001:0:c000:203:0:fbfe:39cc:9bfe')  # as PLAIN, and nothing else
WITH_FLAGS = '2001:0:c000:203:9abc:fbff:39cc:9bfd'  # the cone bit among random ones (RFC 5991, section 3.1)
# Two answers, and the words from the first to the second and back.
BY_HAND = (
    (CONE, OTHER_CONE, 'within 1', 'within 1'), (CONE, OTHER_PLAIN, 'within 4', 'within 1'), (PLAIN, OTHER_CONE, 'within 1', 'within 4'),
    (PLAIN, OTHER_PLAIN, 'within 5', 'within 5'), (PLAIN, WITH_FLAGS, 'within 1', 'within 4'), (CONE, WITH_FLAGS, 'within 1', 'within 1'),
    (CONE, CONE, 'self', 'self'), (PLAIN, PLAIN, 'self', 'self'), (CONE, PLAIN, 'one_nat', 'one_nat'),
    (CONE, BESIDE_CONE, 'one_nat', 'one_nat'), (CONE, BESIDE_PLAIN, 'one_nat', 'one_nat'), (PLAIN, BESIDE_PLAIN, 'one_nat', 'one_nat'),
    (WITH_FLAGS, OTHER_PLAIN, 'one_nat', 'one_nat'), (PLAIN, SAME_SERVER, 'within 5', 'within 5'), (PLAIN, SAME_NAT, 'one_nat', 'one_nat'),
    *((address, line, 'away', 'off') for address in (CONE, PLAIN) for line in (SYMMETRIC, OFFLINE, UNDECIDED)),
    *((one, other, 'off', 'off') for one in (SYMMETRIC, OFFLINE, UNDECIDED) for other in (SYMMETRIC, OFFLINE, UNDECIDED)))
RIGHT = f'qualified {CONE} sent 1 failed 0'
# What is no line of `qualify`.
NONE = ('', ' ', 'qualified', f'qualified {CONE}', CONE, f'qualified {CONE} sent 1', f'qualified {CONE} sent 1 failed', f'qualified  {CONE} sent 1 failed 0',
        f'qualified {CONE} sent 01 failed 0', f'qualified {CONE} sent -1 failed 0', f'qualified {CONE} sent \u0661 failed 0', f'Qualified {CONE} sent 1 failed 0',
        f'{RIGHT} served', f'{RIGHT}\n{RIGHT}', f'a {RIGHT}', 'qualified sent 1 failed 0', f'qualified {CONE.upper()} sent 1 failed 0',
        'qualified 2001:db8::1 sent 1 failed 0', 'qualified 2001:0000:c000:201:8000:fbff:39cc:9bfe sent 1 failed 0', f'qualified {CONE}%lo sent 1 failed 0',
        f'qualified {CONE[:-5]} sent 1 failed 0', f'qualified {CONE}f sent 1 failed 0', f'qualified {CONE}/64 sent 1 failed 0', 'symmetric', f'symmetric {CONE} sent 5 failed 0',
        'restricted sent 5 failed 0', 'served 1 sent 1 failed 0 six 0 dropped 0', 'words', '/nowhere/at/all', '\x1b[2J', f'{RIGHT}\x1b', 'x' * 100_000)
LAYOUTS = ('own', 'one_nat', 'one_carrier', 'two_carriers')
SERVED = 2  # clients on loopback
PAIRS = 304  # of clients that are played
LIMIT = 60  # seconds


def line_of(address):
    return f'qualified {address} sent 1 failed 0' if address.startswith('2001:') else address


def words_of(lines):
    """What `meet` says of two lines, from the first to the second and back."""
    one, other = map(meet.answer_of, lines)
    return meet.word_of(one, other), meet.word_of(other, one)


def check_meet(program):
    return faults_by_hand() + faults_of_texts() + faults_of_refusals() + faults_of_files() + faults_of_reach(program) + faults_on_loopback(program)


def faults_by_hand():
    found = []
    for one, other, there, back in BY_HAND:
        for lines, due in (((one, other), (there, back)), ((other, one), (back, there))):
            got = words_of(map(line_of, lines))
            found += [] if got == due else [f'{lines}: {got}, not {due}']
    return found


def faults_of_texts():
    """All that is written of two lines: of each word what it means, and of each but `within 1` what would change it."""
    found = []
    for one, other, there, back in BY_HAND:
        lines = list(meet.lines_of(*map(meet.answer_of, map(line_of, (one, other)))))
        changed = ' '.join(line.partition(':')[0] for line in lines if line.startswith('what would change '))
        is_told = all(any(line.startswith(f'{word}: ') for line in lines) and (word in changed or word == 'within 1') for word in (there, back))
        if lines[:3] != [f'a b {there}', f'b a {back}', ''] or not is_told or lines[-1] != meet.WANTED:
            found.append(f'{one}, {other}: {lines}')
    apart = list(meet.lines_of(*map(meet.answer_of, map(line_of, (PLAIN, OTHER_CONE)))))[3:5]
    due = [f'a: {PLAIN}, of the server 192.0.2.1, seen at 198.51.100.1:1024, without the cone bit',
           f'b: {OTHER_CONE}, of the server 192.0.2.3, seen at 198.51.100.2:1024, with the cone bit']
    return found + ([] if apart == due else [f'{apart}'])


def faults_of_refusals():
    found = [f'{line[:60]!r} is read' for line in NONE if not is_refused(line)]
    for words in (*((line, RIGHT) for line in NONE[-3:]), *((RIGHT, line) for line in NONE[:3])):
        status, written, said = run('tools/meet.py', *words)
        if status != 2 or written or said.count('\n') != 1 or not said[:-1].isprintable() or len(said) > 200:
            found.append(f'{words}: {status}, {written!r}, {said!r}'[:400])
    for words in ((), (RIGHT,), (RIGHT,) * 3, ('-', '-')):
        status, written, said = run('tools/meet.py', *words)
        found += [] if status == 2 and not written and said else [f'{words}: {status}, {written!r}, {said!r}']
    return found


def is_refused(word):
    try:
        return meet.answer_in(word) is None
    except command.Refusal as fault:
        return fault.status == command.WRONG_WORDS


def faults_of_files():
    """A line in a file, and on standard input; a file that can't be read, and one that has no line."""
    found, due = [], run('tools/meet.py', line_of(PLAIN), line_of(OTHER_CONE))
    with tempfile.TemporaryDirectory() as folder:
        paths = [os.path.join(folder, name) for name in 'ab']
        for path, address in zip(paths, (PLAIN, OTHER_CONE)):
            command.write(path, line_of(address) + '\n')
        got = run('tools/meet.py', *paths)
        piped = subprocess.run([os.path.join(TOP, 'teredo'), 'meet', '-', paths[1]], input=line_of(PLAIN).encode() + b'\r\n', stdout=subprocess.PIPE, timeout=LIMIT)
        found += [f'{other}, not {due}' for other in (got, (piped.returncode, piped.stdout.decode(), '')) if other != due]
        with open(paths[0], 'wb') as file:
            file.write(b'\xff\xfe')
        for path, status in ((folder, 4), (paths[0], 2)):
            got = run('tools/meet.py', RIGHT, path)
            found += [] if got[0] == status and not got[1] and got[2].count('\n') == 1 else [f'{path}: {got}']
    return found


def two_clients(layout, kinds, tries, servers):
    """Two clients that have just qualified, in this layout of NATs, with the cone phase or without, of so many servers."""
    lab = Scenario()
    own = [lab.server(f's{number}') for number in range(1, servers + 1)]
    nats = [lab.nat('n1', kinds[0])] * 2 if layout == 'one_nat' else [lab.nat(f'n{number}', kind) for number, kind in enumerate(kinds, 1)]
    if layout.endswith(('carrier', 'carriers')):
        outer = [lab.nat(f'carrier{number}', 'cone') for number in range(1, 2 + (layout == 'two_carriers'))]
        lab.chain = ','.join(f'{nat}:{carrier}' for nat, carrier in zip(nats, outer * 2))
    for number, (name, nat, cone_try) in enumerate(zip('ab', nats, tries)):
        lab.client(name, nat, server=own[number % servers], **({} if cone_try else {'cone_try': False}))
    lab.qualify()
    return lab.text()


def scenarios():
    """Each layout with each two kinds, and where there is no carrier with the cone phase or without, of one server or two."""
    for layout, kinds, tries, servers in itertools.product(LAYOUTS, itertools.product(KINDS, KINDS), ((True, True), (True, False), (False, False)), (1, 2)):
        is_short = layout.endswith(('carrier', 'carriers')) and (servers == 2 or not all(tries))
        if not is_short and (layout != 'one_nat' or kinds[0] == kinds[1]):
            yield f'{layout} {" ".join(kinds)}, {tries}, {servers} servers', two_clients(layout, kinds, tries, servers)


def lines_of(written):
    """By client the line that `qualify` would write of what it found."""
    told, found = report.Report(written), {}
    for client in 'ab':
        records = told.addresses.get(client, [])
        found[client] = line_of(records[-1].address) if records else SYMMETRIC
    return found


def faults_of_reach(program):
    found, counts = [], collections.Counter()
    for name, text in scenarios():
        lines = lines_of(command.play(program, text)[1])
        said = matrix.pairs(matrix.answer(program, text)[1])
        for sender, receiver in (('a', 'b'), ('b', 'a')):
            word = words_of((lines[sender], lines[receiver]))[0]
            counts[word] += 1
            if said.get((sender, receiver)) != word:
                found.append(f'{name}, {sender} {receiver}: {word}, and reach says {said.get((sender, receiver))}')
    due = {'off', 'away', 'one_nat', 'within 1', 'within 4', 'within 5'}
    found += faults_of_second_answer(program)
    return found + ([] if set(counts) == due and min(counts.values()) >= 8 and sum(counts.values()) == PAIRS else [f'{sum(counts.values())} pairs: {counts}'])


def faults_of_second_answer(program):
    """A client that begins anew while its NAT still lets the second address in has a false cone bit."""
    lab = Scenario()
    lab.server('s1')
    for name in 'ab':
        lab.client(name, lab.nat(f'n{name}', 'port'))
    lab.qualify()
    lab.event('restart a')
    lab.qualify()
    lines, said = lines_of(command.play(program, lab.text())[1]), matrix.pairs(matrix.answer(program, lab.text())[1])
    words = words_of((lines['b'], lines['a']))[0], said['b', 'a']
    return [] if words[0] == 'within 1' and words[1] not in matrix.WITHIN else [f'a second answer: {words}']


def faults_on_loopback(program):
    """Two clients of one server, and no NAT: each address has the cone bit."""
    primary, secondary, *inside = (loopback.address(0, last) for last in range(1, 3 + SERVED))
    server = subprocess.Popen([program, 'serve', primary, secondary, str(SERVED), '3000'], stdout=subprocess.PIPE)
    lines = [subprocess.run([program, 'qualify', ip, primary, secondary, '0', '1000'], stdout=subprocess.PIPE, timeout=LIMIT).stdout.decode().strip() for ip in inside]
    server.communicate(timeout=LIMIT)
    status, written, said = run('tools/meet.py', *lines)
    is_right = status == 0 and written.startswith('a b within 1\nb a within 1\n') and all(f'of the server {primary}, seen at {ip}:' in written for ip in inside)
    return [] if is_right else [f'{lines}: {status}, {written!r}, {said!r}']
