"""What the laboratory shows.

- Each example: the view has each record with its rule and each arrow, and its picture is `flow --svg`'s.
- Who reaches whom is what `reach` says; a click on a pair leads to its packet, which comes where the word says so.
- A page that `page` writes has all in itself, and nothing of a scenario can end its script.
- The bytes of each datagram are those of the capture, with what `show` says; a page opens at the first record that matters.
- Where nothing is built the examples are shown from their reports, and nothing else; `page` alone makes a trial, and says so.
- A bar of the ladder stands so long a NAT lets somebody in, and is named.
- Two hosts from each menu are played, and what is no choice is refused.
"""
import glob
import json
import os
import re
import shutil
import subprocess
import sys
import tempfile

import causes
import command
import gallery
import matrix
import page
import parts
import player
import probes
import told
import view
import windows
from ladder import Ladder
from laboratory import EXAMPLE, HOSTILE, NO_REACH, REFUSED, TOP, flow_svg, refusal, script
from stored import of_tests
from tally import skip

# What is asked of a copy of this folder in which nothing is built.
UNBUILT = '''
import sys
sys.path.insert(0, {0!r} + '/tools')
import command
command.TOP, command.PROGRAM = {0!r}, {0!r} + '/teredo'
import page, player
playing = player.player_of(command.PROGRAM)
try:
    playing.play('seed = 1')
except command.Refusal as fault:
    print(fault)
print(page.page_of(playing, command.read({1!r}), 'x'))
'''


def examples():
    return sorted(glob.glob(os.path.join(TOP, 'examples', 'scenarios', '*.toml')) + glob.glob(os.path.join(TOP, 'examples', 'chains', '*.toml')))


def check_views(program):
    """Each example as the page has it."""
    found, playing = [], player.Player(program)
    for path in examples():
        shown, stored = view.view_of(playing, command.read(path), os.path.basename(path)), command.read(path + '.stdout').splitlines()
        if 'faults' in shown:
            if path != REFUSED or [fault['said'] for fault in shown['faults']][:1] != stored[:1] or not shown['faults'][0]['line']:
                found.append(f'{path}: {shown["faults"]}')
            continue
        if [record['line'] for record in shown['records']] != stored[:-1] or shown['totals'] != stored[-1]:
            found.append(f'{path}: other records')
        without = [record['line'] for record in shown['records'] if not shown['rules'][record['rule']]['rules']]
        if without:
            found.append(f'{path}: no rule for {without[0]}')
        if len(shown['patches']) != len(stored) - 1:
            found.append(f'{path}: a record without its patches')
        for words, picture in (((), shown['pictures'][0]), (('--ends',), shown['pictures'][1])):
            if flow_svg(program, path, *words) != picture:
                found.append(f'{path}: the picture is not what flow makes')
        closed = [record for record in shown['records'] if record['fate'] == 'nat_closed' and record['way'][-1] != record['node']]
        found += [f'{path}: the way of {record["line"]} is {record["way"]}' for record in closed]
    return found


def check_states(program):
    """What a NAT is said to let in agrees with what it did: a datagram that came in was let in, and one that it stopped was not. Whoever
    is barred is named."""
    found, playing = [], player.Player(program)
    for path in examples():
        shown = view.view_of(playing, command.read(path), 'x')
        if 'faults' in shown:
            continue
        if not shown['has_state']:
            skip('what the page says that nodes keep', 'this program does not answer `state`')
            break
        kinds = {node['name']: node['kind'] for node in shown['nodes']}
        made = told.Told(playing, command.read(path))
        for record in shown['records']:
            found += faults_of_bars(made, record, path) if record['fate'] == 'barred' else []
            entry = re.search(r', ([\d.]+:\d+) > [\d.]+:(\d+), ', record['entries'][0][1] if 'way' in record else '')
            nats = [node for node in record.get('way', []) if kinds.get(node) == 'nat']
            if not entry or not nats or record['way'][-1] != record['node'] or kinds.get(record['node']) not in ('client', 'nat'):
                continue
            if lets_in(made, record, nats[-1]) != (kinds[record['node']] == 'client'):
                found.append(f'{path}: {record["line"]}')
    return found + faults_of_patches(playing)


def faults_of_bars(made, record, path):
    """Of a record where somebody is barred: what is kept says for whom and until when, and so does the sentence that says why."""
    kept, now = made.kept, record['moment']
    ends = [peer.barred_until(now) for peer in kept.peers(record['node'], kept.after(record['index']), now)]
    return [] if any(until and until > now for until in ends) and 'why' in record else [f'{path}: nobody is barred in {record["line"]}']


def check_windows(program):
    """A bar stands in a NAT's column from the record that let somebody in up to the record at whose moment nothing does any more: what came
    in and what was stopped agrees with the bars of the row, and each bar is named, in the picture and in the table."""
    found, playing = [], player.Player(program)
    for path in examples():
        shown = view.view_of(playing, command.read(path), 'x')
        if 'faults' in shown or not shown['has_state']:
            continue
        made = told.Told(playing, command.read(path))
        ladder = Ladder(made.report, known=made.known, windows=windows.windows_of(made.kept, made.known))
        for number, row in enumerate(ladder.rows):
            record, entry = made.report.records[row.record], made.report.entries.get(row.entry)
            if entry is None or row.is_lost or made.known.kinds.get(row.target) not in ('client', 'nat'):
                continue
            nat = row.target if made.known.kinds[row.target] == 'nat' else made.known.way_out(row.target)[0]
            port = causes.port_at(made, made.kept, nat, entry, made.kept.before(record.index))
            whom = {'', entry.source, entry.source.rpartition(':')[0]}
            is_open = any(bar.first < number < bar.end and (bar.window.nat, bar.window.port) == (nat, port) and bar.window.whom in whom for bar in ladder.bars)
            found += [f'{path}: the bars of row {number} say otherwise: {record.line}'] if is_open == (row.target == nat) else []
        titles = re.findall('<title>(.*?)</title>', shown['pictures'][0])[1:]
        said = ' '.join(turn for step in shown['steps'] for turn in step[6])
        found += [f'{path}: {windows.said_of(bar.window, made.known)} is not said' for bar in ladder.bars
                  if windows.whom_of(bar.window, made.known) not in said or windows.whom_of(bar.window, made.known) not in ' '.join(titles) and 'more' not in ' '.join(titles)]
    return found


def lets_in(made, record, nat):
    """Whether a NAT, by what is kept before a record, lets in what comes to it."""
    kept, now = made.kept, record['moment']
    entry, count = made.report.came_by(made.report.records[record['index']]), kept.before(record['index'])
    number = causes.port_at(made, kept, nat, entry, count)
    port = kept.port(nat, number, count, now) if number is not None else None
    if port is None:
        return False
    names = {one.source for one in kept.lets(nat, number, count, now)}
    return port.toward == entry.source if port.toward else made.known.tables[nat]['kind'] == 'cone' or bool({entry.source, entry.source.rpartition(':')[0]} & names)


def faults_of_patches(playing):
    """A window of records begins with what is kept there, and has a part for each record."""
    found = []
    for name in ('scenarios/client_to_native', 'scenarios/restarted_relay', 'chains/two_homes', 'scenarios/forgotten_client'):
        made = told.Told(playing, command.read(os.path.join(TOP, 'examples', f'{name}.toml')))
        whole = view.View(made, 'x').kept()
        for first in range(0, len(made.report.records), 7):
            shown = view.View(made, 'x')
            shown.first, shown.records = first, made.report.records[first:]
            part = shown.kept()
            now = [view.said_of(node, what) for node, what in made.kept.state(made.kept.before(first), made.report.records[first].moment)]
            if part['base'] != now or part['patches'] != whole['patches'][first:]:
                found.append(f'{name} from record {first} on: {part["base"]}')
    return found


def check_stored(program):
    """What is stored of `state` and of `follow` for each example is what the program says."""
    found = []
    for word in player.STORED:
        stored, told_of = player.stored_of(word), dict(of_tests('shown').blocks(word, program))
        if None in told_of.values():
            skip(f'what is stored of `{word}`', 'this program does not answer it')
        else:
            found += [f'tests/stored/{word}.txt: {name} is not what the program says' for name in sorted({*stored, *told_of}) if stored.get(name) != told_of.get(name)]
    return found


def check_matrices(program):
    """Of each example who reaches whom, and where each pair leads; of a program that doesn't know `reach` nothing."""
    found, playing = [], player.Player(program)
    for path in examples():
        text = command.read(path)
        shown = view.view_of(playing, text, 'x')
        if 'faults' in shown:
            continue
        lines = matrix.answer(program, text)[1]
        due = {'pairs': [line.split(' ', 2) for line in lines[:-1]], 'total': lines[-1]}
        if {**shown['reach'], 'means': None} != {**due, 'means': None} or not all(map(shown['reach']['means'].get, words_of(due))):
            found.append(f'{path}: {shown["reach"]}, and reach says {lines}')
            continue
        found += [f'{path}: {fault}' for pair in shown['reach']['pairs'] for fault in faults_of_probe(playing, text, *pair)]
    with tempfile.TemporaryDirectory() as folder:
        shown = view.view_of(player.Player(script(folder, 'without', NO_REACH.format(program))), command.read(EXAMPLE), 'x')
        found += [] if shown['reach'] is None and shown['records'] else [f'without reach: {shown["reach"]}']
    untold = [word for word in (*matrix.WITHIN, *matrix.SHUT, *matrix.UNSAID) if not matrix.told().get(word)]
    found += [f'docs/REACH.md has no row of {word}' for word in untold]
    named = matrix.pairs(['total b within 1', 'b total off', 'total pairs 2 within 1 shut 1 unsaid 0'])
    return found + ([] if named == {('total', 'b'): 'within 1', ('b', 'total'): 'off'} else [f'a host by the name total: {named}'])


def words_of(reach):
    return [word for *_, word in reach['pairs']]


def faults_of_probe(playing, text, sender, receiver, word):
    """What is wrong where a click on a pair leads to: to its packet at the end, which arrives, unless the send that is to fail is one
    of its own."""
    longer, event = probes.probe(text, sender, receiver, playing.play)
    shown = view.view_of(playing, longer, 'x')
    after = [record for record in shown.get('records', []) if record['event'] >= event]
    if not after or after[0]['node'] != sender or f' host {sender} ' not in after[0]['line'] or shown['packets'][-1]['record'] != after[0]['index']:
        return [f'{sender} {receiver} leads to {after[:1]}']
    is_here = shown['packets'][-1]['state'] == 'arrived' or any('!fault=' in record['line'] for record in after)
    return [f'{sender} {receiver} {word}: {shown["packets"][-1]}'] if word in matrix.WITHIN and not is_here else []


def check_pages(program):
    """Pages that need nothing else, of each example, of a refused one and of one that would like to end the script."""
    found, playing = [], player.Player(program)
    for path in examples():
        made = page.page_of(playing, command.read(path), os.path.basename(path))
        loads = re.findall(r'(?:src|href|url)\s*[=(]\s*["\']?(?!data:)[a-z/]', made.partition('<script type')[0])
        if loads or made.count('<script') != 2 or made.count('</script>') != 2 or "default-src 'none'" not in made:
            found.append(f'{path}: {loads}, {made.count("<script")} scripts')
        data = json.loads(re.search(r'id="data">(.*?)</script>', made, re.S)[1])
        if data['text'] != command.read(path):
            found.append(f'{path}: another text')
    text = f'# {HOSTILE}\n' + command.read(EXAMPLE)
    made = page.page_of(playing, text, HOSTILE)
    if made.count('<script') != 2 or '<!--' in made or json.loads(re.search(r'id="data">(.*?)</script>', made, re.S)[1])['text'] != text:
        found.append('a scenario ends the script of its page')
    done = subprocess.run([sys.executable, os.path.join(TOP, 'tools', 'page.py'), EXAMPLE, '--program', program], stdout=subprocess.PIPE, timeout=60)
    if done.stdout.decode() != page.page_of(playing, command.read(EXAMPLE), os.path.basename(EXAMPLE)):
        found.append('page FILE writes another page')
    return found


def check_datagrams(program):
    """Of a page every datagram that it shows: its bytes are those of the capture, in order, and what is said of them is what `show` says.
    Where no capture is made, the page says why."""
    found, playing = [], player.Player(program)
    for path in (EXAMPLE, os.path.join(TOP, 'examples', 'scenarios', 'client_to_native.toml'), os.path.join(TOP, 'examples', 'scenarios', 'server_table.toml')):
        text = command.read(path)
        shown = view.view_of(playing, text, 'x')
        made, carried = page.bytes_of(playing, text, shown)['datagrams'], parts.payloads(playing.wire(text)[1])
        lengths = [int(length) for length in re.findall(r' #\d+=\S+/(\d+)', command.read(path + '.stdout'))]
        if [len(data) for data in carried] != lengths or sorted(made) != list(range(len(carried))):
            found.append(f'{path}: {len(carried)} payloads, {len(made)} of them in the page, for {len(lengths)} entries')
            continue
        for number, data in enumerate(carried):
            lines = subprocess.run([program, 'show', data.hex()], stdout=subprocess.PIPE).stdout.decode().splitlines()
            said = ' '.join(str(one) for part in made[number] for one in (part['said'], *(word for row in part['parts'] for word in row)))
            untold = [line for line in lines for word in re.findall(r'[\w.]*\d[\w.]*', line.partition(' ')[2])
                      if word not in said and not line.startswith(('body', 'auth none', 'origin none'))]
            if ''.join(part['hex'] for part in made[number]) != data.hex() or [part['at'] for part in made[number]][:1] != [0] or untold:
                found.append(f'{path}: #{number}: {untold[:2]}, {str(made[number])[:300]}')
    chained = os.path.join(TOP, 'examples', 'chains', 'two_homes.toml')
    told = page.bytes_of(playing, command.read(chained), view.view_of(playing, command.read(chained), 'x'))
    return found + ([] if told['datagrams'] == {} and 'no capture is made with a chain' in told['no_datagrams'] else [f'with a chain: {told}'])


def check_openings(program):
    """A page opens where a packet was lost first, else where one was handed in; and it says why, as `trace` does."""
    found, playing = [], player.Player(program)
    for name, due, why in (('chains/two_homes', ' give_up ', 'sender and peer are behind one NAT'), ('scenarios/lost_mapping', ' n1 nat_closed', 'and nothing renewed it'),
                           ('scenarios/symmetric_client', ' host a off', 'a NAT on its way is symmetric'), ('scenarios/failed_send', '!fault=', 'the send failed'),
                           ('scenarios/restarted_relay', ' r1 unlisted', 'r1 was restarted'), ('scenarios/two_port_restricted', ' host a queued', ''),
                           ('scenarios/peer_without_address', ' host a dest', 'b has no address'), ('scenarios/forgotten_client', ' nat_closed', 'was told to forget'),
                           ('scenarios/no_such_host', ' give_up ', 'no native host'), ('scenarios/restarted_nat', ' nat_closed', 'it was restarted'),
                           ('chains/tree_of_nats', '!hairpin=', 'behind one NAT'), ('scenarios/unreachable_peer', ' give_up ', '4 tries got no answer')):
        shown = view.view_of(playing, command.read(os.path.join(TOP, 'examples', f'{name}.toml')), 'x')
        record = shown['records'][shown['opening']]
        if due not in record['line'] or why not in ' '.join(record.get('why', [])) or bool(why) != ('why' in record):
            found.append(f'{name} opens at {record["line"]}: {record.get("why")}')
    return found


def check_two(program):
    """Two hosts of each kind, with and without carriers: all is played, and each host's packet is told of. Of two that are behind one
    NAT of a carrier, whatever was chosen before of each one's own, `reach` says so, but where that one is symmetric."""
    found, playing = [], player.Player(program)
    choices = [{'a': {'kind': one}, 'b': {'kind': other}} for one in gallery.KINDS for other in (*gallery.KINDS, 'native')]
    choices += [{'a': {'carrier': one}, 'b': {'carrier': other}, 'carrier': one, 'carriers': which} for one in gallery.KINDS for other in gallery.KINDS
                for which in gallery.CARRIERS]
    choices += [{'a': {'cone_try': False, 'idle': 1}, 'b': {'kind': 'cone', 'cone_try': False, 'idle': 10_000_000}, 'low': 1000, 'high': 1_000_000}]
    for choice in choices:
        shown = view.view_of(playing, gallery.two_hosts(choice, playing.play)[0], 'x')
        if shown.get('faults') or len(shown['packets']) != 2:
            found.append(f'{choice}: {shown.get("faults") or shown["packets"]}')
        elif choice.get('carriers') == 'one' and {word for *_, word in shown['reach']['pairs']} != {one_carrier_word(choice['carrier'])}:
            found.append(f'{choice}: {shown["reach"]}')
    for choice in ({'a': {'kind': 'native'}}, {'a': {'kind': 'open'}}, {'a': {'kind': ['port']}}, {'a': {'idle': 0}}, {'a': {'idle': '5'}},
                   {'a': {'idle': True}},
                   {'b': {'kind': 'native'}, 'carriers': 'each'}, {'b': {'kind': 'native'}, 'carriers': 'one'}, {'carriers': ''}, {'carriers': True},
                   {'carriers': 'one', 'carrier': ''}, {'a': {'carrier': ''}}, {'low': 5}, {'low': 30_000, 'high': 20_000}, {'a': {'cone_try': 1}}):
        if not refusal(lambda: gallery.two_hosts(choice, playing.play)):
            found.append(f'{choice} is played')
    return found


def one_carrier_word(kind):
    """What `reach` says of two hosts behind one NAT of a carrier: behind a symmetric one neither has an address."""
    return 'off' if kind == 'symmetric' else 'one_nat'


def check_unbuilt(program):
    """Where nothing is built, the examples are shown as they stand, and nothing else is."""
    found, stored, built = [], player.Stored(), player.Player(program)
    for path in examples():
        shown, played = view.view_of(stored, command.read(path), 'x'), view.view_of(built, command.read(path), 'x')
        if 'state' not in built.unknown and {**shown, 'reach': None, 'note': ''} != {**played, 'reach': None, 'note': ''}:
            found.append(f'{path}: another view')
    with tempfile.TemporaryDirectory() as folder:
        for name in ('docs', 'examples', 'tests'):
            os.symlink(os.path.join(TOP, name), os.path.join(folder, name))
        shutil.copytree(os.path.join(TOP, 'tools'), os.path.join(folder, 'tools'))
        script(folder, 'teredo', '#!/bin/sh\necho "not built" >&2\nexit 125\n')
        done = subprocess.run([sys.executable, '-B', '-c', UNBUILT.format(folder, EXAMPLE)], stdout=subprocess.PIPE, stderr=subprocess.PIPE, timeout=60)
        written = done.stdout.decode()
        if done.returncode or written.count('<script') != 2 or '"records"' not in written or 'the examples alone' not in written:
            found.append(f'unbuilt: {done.returncode}, {written[-200:]}, {done.stderr.decode()[-300:]}')
        found += faults_of_trials(folder, program)
    return found


def faults_of_trials(folder, program):
    """A page of another scenario, by a ./teredo that makes a trial where that is allowed."""
    found = []
    script(folder, 'teredo', f'#!/bin/sh\n[ -z "${{TEREDO_PROVED-}}" ] || exit 125\necho "no proof" >&2\nexec {program} "$@"\n')
    own = os.path.join(folder, 'own.toml')
    command.write(own, command.read(EXAMPLE) + '# my own\n')
    for proved, path, status, note in (('', own, 0, player.UNPROVED), ('', EXAMPLE, 0, '"note":""'), ('1', own, 125, '')):
        done = subprocess.run([sys.executable, '-B', f'{folder}/tools/page.py', path], stdout=subprocess.PIPE, stderr=subprocess.PIPE, timeout=60,
                              env={**os.environ, 'TEREDO_PROVED': proved} if proved else {**os.environ})
        if done.returncode != status or note not in done.stdout.decode() or (b'no proof' in done.stderr) != (note == player.UNPROVED):
            found.append(f'a trial, {path}, {proved}: {done.returncode}, {done.stdout.decode()[-200:]}, {done.stderr.decode()[-300:]}')
    return found
