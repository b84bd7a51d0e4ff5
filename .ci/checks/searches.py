"""Tools that play many scenarios.

- chance: what is drawn of an entry is what becomes of it: lost, or delivered so many milliseconds after it was made.
- explore: the orders of tests/stored/orders.txt, by their fates, and those of some of its ways, as tests/orders.py finds them; with
  losses and repeats, what a plain search by `deliver` alone finds, also with a chain.
- sweep: lines as played one by one, parts that make the whole, a file that is gone on with, scenarios of many sizes, generated ones,
  refused ones, pictures that are XML, words that are refused.
"""
import collections
import csv
import io
import os
import re
import subprocess
import sys
import tempfile
from xml.etree import ElementTree

import chance
import command
import explore
import sweep
import template
import told
import toml_places
import workers
from followed import ARRIVED
from stored import SVG, TOP, of_tests, path_of, run
from toml_places import scenario_events

# Ways of which `explore` finds the orders, too.
ORDERS_ALONG = (('restricted:port', 'no-bit:cone'), ('port', 'cone:port:restricted'), ('cone:cone', 'port:cone'))
# The pair of clients, and how many may be lost and repeated: what explore finds is compared with a plain search.
SEARCHED = (('port', 'port', 0, 0), ('port', 'port', 1, 0), ('port', 'port', 0, 1), ('cone', 'restricted', 1, 1), ('no-bit', 'port', 2, 0))
WRONG_SETS = (['--set', 'n1.kind'], ['--set', 'n9.kind=port'], ['--set', 'n1.kin=port'], ['--set', 'word=1'], ['--seeds', '5..1'], ['--set', 'n1.idle=1;2'],
              ['--set', 'n1.idle=1', '--set', 'n1.idle=2'], ['--shard', '3/2'], ['--shard', '0/2'], ['--plot', 'number'],
              ['--plot', 'number,nothing'], ['--jobs', '0'])


def scenario_of_orders(source, target):
    """The scenario of tests/orders.py for a pair, and the number of its packet's event."""
    done = subprocess.run([sys.executable, '-B', os.path.join(TOP, 'tests', 'orders.py'), '--scenario', source, target], stdout=subprocess.PIPE)
    events = toml_places.read(done.stdout.decode()).value['events'].value
    return done.stdout.decode(), next(number for number, event in enumerate(events) if event.value.startswith('host a b'))


def explored(program, text, *words):
    with tempfile.NamedTemporaryFile('w', suffix='.toml', encoding='utf-8') as file:
        file.write(text)
        file.flush()
        task, event, _ = explore.task_of(explore.options_of([file.name, '--program', program, *map(str, words)]))
    with workers.Pool(2) as pool:
        return explore.explored(task, event, explore.MOST, pool, workers.Progress())[0], task, event


def searched(task, event):
    """Each schedule by its fates and whether the packet arrives, found one delivery after the other."""
    counts, fronts = collections.Counter(), [()]
    while fronts:
        front = fronts.pop()
        played = task.play(list(front), False)
        mine = [record for record in played.report.records if record.event >= event]
        made = {entry.number for record in mine for entry in record.entries}
        end = played.followed.by_record[mine[0].index].end
        left = made - set(front)
        if len(left) <= task.lose:
            counts[tuple(record.fate for record in mine[1:]), end.state == ARRIVED] += 1
        again = set(front) if len(front) - len(set(front)) < task.repeat else set()
        fronts += [front + (number,) for number in left | again]
    return counts


def check_orders(program):
    """Each order of tests/stored/orders.txt behind one NAT is found, and no other one; and of some ways those that tests/orders.py finds."""
    behind_one = command.read(os.path.join(TOP, 'tests', 'stored', 'orders.txt')).split('\nfrom ')[0]
    rows = re.findall(r'^(?:first|second|third|fourth|last|not sent) +(\d+)  (.*)$', behind_one, re.M)
    orders, found, due, counts = of_tests('orders'), [], collections.Counter(), collections.Counter()
    for count, fates in rows:
        due[fates] += int(count)
    kinds = ('cone', 'no-bit', 'restricted', 'port')
    for source, target in ((one, other) for one in kinds for other in kinds):
        text, event = scenario_of_orders(source, target)
        for (fates, has_arrived), count in explored(program, text, '--event', event)[0].counts.items():
            counts[' '.join(fates)] += count
            found += [] if has_arrived else [f'{source} to {target}: {fates}: it is said not to arrive']
    for source, target in ORDERS_ALONG:
        text, event = scenario_of_orders(source, target)
        along = collections.Counter((tuple(orders.sequence(order)[1].split()), True) for order in orders.orders(program, source, target))
        told = explored(program, text, '--event', event)[0].counts
        found += [] if told == along else [f'{source} to {target}: {told}, and tests/orders.py finds {along}']
    return found + ([] if counts == due and sum(counts.values()) == 52 else [f'{counts}, and orders.txt has {due}'])


def check_explore(program):
    found = []
    for source, target, lose, repeat in SEARCHED:
        text, event = scenario_of_orders(source, target)
        made, task, event = explored(program, text, '--event', event, '--lose', lose, '--repeat', repeat)
        if made.counts != searched(task, event) or made.total != sum(made.counts.values()):
            found.append(f'{source} to {target}, {lose} lost, {repeat} repeated: {made.total}, and a plain search finds others')
        for kind, numbers in made.firsts.items():
            records = task.play(list(numbers), False).report.records
            fates = tuple(record.fate for record in records if record.event > event)
            found += [] if fates == kind[0] else [f'{numbers} have {fates}, not {kind[0]}']
    found += faults_of_killed(program)
    text = command.read(path_of('two_homes'))
    packet = max(number for number, event in enumerate(scenario_events('x', text)) if event.startswith('host'))
    made, task, event = explored(program, text, '--event', packet, '--lose', 1)
    if task.has_settle or task.chain is None or made.counts != searched(task, event):
        found.append(f'with a chain: {made.counts}')
    status, written, said = run('tools/explore.py', path_of('two_port_restricted'), '--program', program, '--event', '4', '--repeat', '2', '--most', '50')
    return found + ([] if status == 1 and written.startswith('50 schedules') and 'there are more' in written
                    else [f'--most: {status}, {written[:200]}, {said}'])


def faults_of_killed(program):
    """The entries whose loss kills the packet of an example are those without which no schedule of a plain search has it arrive; what
    isn't built, and what is refused, has its own reason."""
    words = [path_of('two_port_restricted'), '--program', program, '--event', '4']
    status, written, said = run('tools/explore.py', *words, '--lose', '1')
    killing = re.findall(r'^  without the (.*?) of (\w+), .*: in 0 of \d+; its loss kills the packet$', written, re.M)
    found = [] if status == 0 and killing == [('bubble', 'a'), ('bubble', 'b'), ('bubble, origin', 's1'), ('packet', 'a')] else [f'{killing}, {said}']
    found += [] if 'without' not in run('tools/explore.py', *words)[1] else ['without a loss there are entries that are lost']
    with tempfile.TemporaryDirectory() as folder:
        for text, status, due in (('#!/bin/sh\nexit 125\n', 125, 'no program to play with'), ('#!/bin/sh\necho "scenario seed: kind"\nexit 3\n', 1, 'lint says where'),
                                  ('#!/bin/sh\nexit 7\n', 1, 'status 7')):
            path = os.path.join(folder, 'program')
            command.write(path, text)
            os.chmod(path, 0o755)
            got = run('tools/explore.py', path_of('two_port_restricted'), '--program', path)
            found += [] if got[0] == status and due in got[2] and (due == 'lint says where') == ('lint' in got[2]) else [f'{text!r}: {got}']
    return found


def check_sweep(program):
    found, path = [], path_of('two_port_restricted')
    words = ['--program', program, '--set', 'n1.kind=cone,port,symmetric', '--set', 'b.cone_try=true,false', '--set', 'n2.idle=1..60001..30000',
             '--seeds', '3..4']
    status, whole, _ = run('tools/sweep.py', path, *words, '--jobs', '1')
    rows = rows_of(whole)
    if status or len(rows) != 3 * 2 * 3 * 2 or len({tuple(row.values())[1:5] for row in rows}) != len(rows):
        found.append(f'{len(rows)} lines, status {status}')
    for row in rows[::5]:
        text = command.read(path).replace('seed = 1', f'seed = {row["seed"]}').replace('kind = "port"', f'kind = "{row["n1.kind"]}"', 1)
        at = text.rindex('idle = 60000')
        text = text[:at] + f'idle = {row["n2.idle"]}' + text[at + 12:] + f'cone_try = {row["b.cone_try"]}\n'
        played = told.Told(told.Program(program), text)
        totals = 'total ' + ' '.join(f'{name} {row[name]}' for name in sweep.TOTALS)
        if played.report.totals != totals or row['a'] != sweep.end_of(played, 'a'):
            found.append(f'{dict(row)}: {played.report.totals}')
    parts = [run('tools/sweep.py', path, *words, '--shard', f'{part}/5', '--jobs', '2')[1].splitlines() for part in range(1, 6)]
    if [line for part in parts for line in part[2:]] != whole.splitlines()[2:] or any(part[1] != whole.splitlines()[1] for part in parts):
        found.append('the parts do not make the whole')
    found += faults_of_plots(path, whole, words) + faults_of_resumed(path, words, whole) + faults_of_sources(program)
    for more in WRONG_SETS:
        status, written, said = run('tools/sweep.py', path, '--program', program, *more)
        if status not in (1, 2) or not said or 'fault of this tool' in said or 'Traceback' in said:
            found.append(f'{more}: {status}, {said[-200:]}')
    holes = template.Template('x', 'a {one} b {two} {one}', ['one', 'two']).with_values({'one': '1', 'two': '2'})
    return found + ([] if holes == 'a 1 b 2 1' else [f'holes: {holes}'])


def rows_of(written):
    """The lines of a sweep, by their head, which stands below a line that says how they came about."""
    return list(csv.DictReader(io.StringIO(written.partition('\n')[2])))


def faults_of_resumed(path, words, whole):
    """A file that was broken off anywhere, and is gone on with, has what it has otherwise; one of something else is left alone."""
    found = []
    with tempfile.TemporaryDirectory() as folder:
        out = os.path.join(folder, 'own.csv')
        for length in (0, 30, whole.index('\n') + 1, len(whole) // 2, len(whole) - 1, len(whole)):
            command.write(out, whole[:length])
            status, _, said = run('tools/sweep.py', path, *words, '--out', out, '--resume', '--jobs', '2')
            if status or command.read(out) != whole:
                found.append(f'gone on with after {length} bytes: {status}, {said}')
        for text, more in ((whole, ['--lose', '0.5']), (whole.replace('commit', 'comit', 1), []), (whole.replace('\n1,', '\n7,', 1), []), ('x\n', []), ('x', [])):
            command.write(out, text)
            status, _, said = run('tools/sweep.py', path, *words, *more, '--out', out, '--resume')
            found += [] if status == 2 and said and command.read(out) == text else [f'of something else, {more}: {status}, {said}']
        status, *_ = run('tools/sweep.py', path, *words, '--resume')
    return found + ([] if status == 2 else ['--resume without --out'])


HOMES = """seed = 1
events = ["advance 0", "settle",
# for i in 2..{count}
  "host c1 c{i} 00", "settle",
# end
]
[[server]]
name = "s1"
primary = "192.0.2.1"
secondary = "192.0.2.2"
# for i in 1..{count}
[[nat]]
name = "n{i}"
kind = "{kind}"
external = "198.51.100.{i}"
idle = 60000
[[client]]
name = "c{i}"
nat = "n{i}"
inside = "10.0.0.{i}:4000"
server = "s1"
# end
"""


def faults_of_sources(program):
    """Scenarios of as many homes as a word says, generated ones, and refused ones, whose lines have all columns."""
    found = []
    with tempfile.TemporaryDirectory() as folder:
        path = os.path.join(folder, 'homes.toml')
        command.write(path, HOMES)
        status, written, said = run('tools/sweep.py', path, '--program', program, '--set', 'kind=cone,nonsense', '--set', 'count=1..4', '--jobs', '1')
        rows = rows_of(written)
        arrived = [row['arrived'] for row in rows if row['kind'] == 'cone']
        if status != 1 or arrived != ['0', '1', '2', '3'] or [row['c4'] for row in rows[:4]] != ['silent'] * 3 + ['qualified_cone']:
            found.append(f'homes: {status}, {written}, {said}')
        refused = [row for row in rows if row['kind'] == 'nonsense']
        if [row['said'] for row in refused] != ['scenario nat[0].kind: range'] * 4 or any(None in row.values() or None in row for row in refused):
            found.append(f'refused ones: {refused}')
        for text in (HOMES.replace('# end', '', 1), HOMES.replace('{count}', 'many', 1), HOMES.replace('2..{count}', '1..999999'), HOMES.replace('# end', '# for x in 1..2')):
            command.write(path, text)
            status, _, said = run('tools/sweep.py', path, '--program', program, '--set', 'kind=cone', '--set', 'count=2')
            found += [] if status in (1, 2) and 'loop' in said else [f'a loop: {status}, {said}']
    status, written, said = run('tools/sweep.py', 'generated:100', '--program', program, '--seeds', '5..7', '--jobs', '1')
    for row in rows_of(written):
        totals = subprocess.run([program, 'gen', row['seed'], '100'], stdout=subprocess.PIPE, timeout=60).stdout.decode().split('\n')[0]
        if 'total ' + ' '.join(f'{name} {row[name]}' for name in sweep.TOTALS) != totals:
            found.append(f'generated {row}: {totals}')
    for words in (['--set', 'c0.idle=1'], [], ['--seeds', '1..2', '--lose', '0.1']):
        status, _, said = run('tools/sweep.py', 'generated:100', '--program', program, *words)
        found += [] if status == 2 and said else [f'generated {words}: {status}, {said}']
    return found


def check_chance(program):
    """Of each entry: lost where that was drawn, and else delivered; what is made while all is delivered at its moment, and what was there
    before at that or at once."""
    found, moments = [], set()
    for name, chances in (('cone_to_port', (chance.Chance(0.2, 10, 80), chance.Chance(0, 0, 5000), chance.Chance(0.5, 7, 7))),
                          ('tree_of_nats', (chance.Chance(0.1, 0, 9),)), ('client_to_native', (chance.Chance(0.1, 0, 300), chance.Chance(0, 4000, 9000)))):
        text = command.read(path_of(name))
        for one, seed in ((one, seed) for one in chances for seed in (1, 2, 9)):
            played = chance.Play(program, text.replace('seed = 1', f'seed = {seed}'), one)
            again = chance.Play(program, text.replace('seed = 1', f'seed = {seed}'), one)
            if played.status or played.events != again.events or played.written != again.written:
                found.append(f'{name}, {one}, {seed}: {played.status}, or played otherwise again')
                continue
            given = set(played.numbers.values())
            for entry in played.report.entries.values():
                came = [record.moment for record in played.report.delivered(entry) if record.event not in given]
                due = entry.maker.moment + one.delay(seed, entry.number)
                is_right = not came if one.is_lost(seed, entry.number) else all(moment >= due for moment in came) and len(came) <= 1
                if not is_right or came and entry.maker.event not in given and came != [due]:
                    found.append(f'{name}, {one}, {seed}: #{entry.number}, made at {entry.maker.moment}, due at {due}, came at {came}')
                moments.update(came)
    if len(moments) < 50 or abs(sum(chance.drawn(7, number, 'lose') for number in range(4000)) / 4000 - 0.5) > 0.02:
        found.append(f'drawn numbers: {len(moments)}')
    for wrong in ('1.1', '-1', 'x', '', '5..4', '1e3'):
        for option in ('--lose', '--delay'):
            status, _, said = run('tools/sweep.py', path_of('cone_to_port'), option, wrong)
            found += [] if status == 2 and 'Traceback' not in said else [f'{option} {wrong}: {status}']
    return found


def faults_of_plots(path, whole, words):
    """Pictures of what was written before, and of what is played for them."""
    found = []
    with tempfile.NamedTemporaryFile('w', suffix='.csv', encoding='utf-8') as file:
        file.write(whole)
        file.flush()
        for source, more, columns in ((file.name, [], 'n2.idle,a'), (file.name, [], 'seed,dropped'), (path, words, 'n1.kind,packet_4')):
            status, picture, said = run('tools/sweep.py', source, '--plot', columns, *more)
            circles = [part for part in ElementTree.fromstring(picture).iter() if part.tag == SVG + 'circle'] if status == 0 else []
            found += [] if circles else [f'{columns}: status {status}, {said}']
    return found
