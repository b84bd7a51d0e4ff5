"""The tools beside the program's own lines: what becomes of each packet, and what each node keeps.

The lines of `lab` or `nested`, of `follow` and of `state` are read here once more, apart from tools/, and of one scenario it is compared:
- `trace --packets`: a line for each packet, with its end, and the record and fate that decided;
- `sweep`: the end of each packet of its row, and which clients still ask;
- `explore`: of each kind of schedule, whether `follow` says of it, played as it stands, that the packet arrives; and its fates;
- a page's data: the packets with their records and ends, the records, and what each node keeps before each of these, in windows too.
"""
import collections
import csv
import io
import json
import os
import random
import re
import tempfile

import chains
import command
import probes
import told
import view
from player import STDIN, Player
from stored import run

RECORD = re.compile(r'(\d+) (\d+) (\d+) (\S+) (\S+) (\S+)(.*)')
STEP = re.compile(r'\d+ .*')
PACKET = re.compile(r'packet (\d+) (\d+) (\S+) (\S+ \S+)(?: back (\S+ \S+))?')
ROW = re.compile(r' *[\d,]+  (arrives|never) +(\S.*)')
LISTED_MS = 300_000  # RFC 4380, section 5.2: what is known of a peer counts so long
SCHEDULES, WINDOWS = 40, 6  # of an exploration, and of a page, at most


class Lines:
    """What the program says of a scenario, by the words of its lines."""

    def __init__(self, playing, text):
        chain = chains.chain_of(text)
        self.status, report = playing.play(text)
        self.records = [RECORD.fullmatch(line) for line in report.splitlines()[:-1]]
        self.report, self.state = report.splitlines(), playing.answer(['state', STDIN, chain or '-', 'each'], text)[1].splitlines()[:-1]
        self.last = playing.answer(['state', STDIN, chain or '-', 'last'], text)[1].splitlines()[:-1]
        self.steps, self.packets = collections.defaultdict(list), []  # of each load
        for line in playing.answer(['follow', STDIN, chain or '-'], text)[1].splitlines():
            if STEP.fullmatch(line):
                words = line.split(' ')
                self.steps[' '.join(words[4:6] if words[5] == 'back' else words[4:5])].append(words)
            elif PACKET.fullmatch(line):
                self.packets.append(PACKET.fullmatch(line).groups())

    def maker(self, entry):
        """The record that made an entry."""
        return next(int(record[1]) for record in self.records if f' #{entry}=' in record[7])

    def said(self, end, load):
        """How a sentence on an end begins, its state and fate, and the record that decided."""
        state, where = end.split(' ')
        if state == 'wire':
            return 'lies on the wire: ', 'wire', self.maker(where)
        if state in ('waits', 'held'):
            at = max(int(step[0]) for step in self.steps[load] if step[-1] == state and step[2] == where)
            return f'{"waits" if state == "waits" else "is held"} at {where}: ', f'{state} {self.records[at][6]}', at
        record, step = self.records[int(where)], self.steps[load][-1]
        fate = step[-1].partition('=')[0] if step[0] == where and step[-1].startswith('!') else record[6]
        if state == 'arrived':
            return f'arrived at {record[5]}, {record[6]}', f'arrived {record[6]}', int(where)
        fate = record[4] if fate == 'done' else fate
        return f'lost {"at " + record[5] if record[5] != "-" else "on the wire"}, {fate}: ', f'lost {fate}', int(where)

    def kept(self, record, now):
        """What holds before a record, by the lines of `state` until then: the last one of each thing, unless it is void or over."""
        found = {}
        for line in self.state:
            index, _, node, *words = line.split(' ')
            if index != '-' and int(index) >= record:
                break
            if words == ['-']:
                found = {key: one for key, one in found.items() if key[0] != node or key[1] == 'own'}
            elif words[0] == 'inside':
                ports = {key[2] for key, one in found.items() if key[:2] == (node, 'port') and one[3] == words[1]}
                found = {key: one for key, one in found.items() if key[0] != node or key[1] not in ('port', 'lets') or key[2] not in ports}
            elif words[0] == 'port' and words[2] == 'lets':
                found[node, 'lets', words[1], words[3]] = words
            elif words[0] == 'port':
                if found.get((node, 'port', words[1]), words)[3] != words[3]:
                    found = {key: one for key, one in found.items() if key[:3] != (node, 'lets', words[1])}
                found[node, 'port', words[1]] = words
            else:
                found[(node, 'peer', words[1]) if words[0] == 'peer' else (node, 'own')] = words
        live = {key[2] for key, words in found.items() if key[1] == 'port' and int(words[-1]) > now for key in [key]}
        return {key: words for key, words in found.items() if self.holds(key, words, now, live)}

    @staticmethod
    def holds(key, words, now, live):
        if key[1] in ('port', 'lets'):
            return int(words[-1]) > now and key[2] in live
        touched = dict(zip(words[::2], words[1::2])).get('touched', '-')
        return key[1] == 'own' or touched != '-' and now < int(touched) + LISTED_MS


def words_of(said):
    """What a page has of a thing, as the words of a line of `state` behind its node, without a nonce."""
    _, what, *rest = said
    dashed = ['-' if one is None else str(one) for one in rest]
    if what == 'void':
        return ['-']
    if what == 'forget':
        return ['inside', *dashed, '-']
    if what == 'port':
        return ['port', dashed[0], 'inside', dashed[1], *(['to', dashed[2]] if rest[2] else []), 'until', dashed[3]]
    if what == 'lets':
        return ['port', dashed[0], 'lets', dashed[1], 'until', dashed[2]]
    if what == 'own':
        return ['due', dashed[2]] if rest[0] is None else [dashed[0], dashed[1], 'due', dashed[2]]
    names = ('peer', 'at', 'heard', 'touched', 'tries', 'waits', 'held')
    dashed[4] = ','.join(map(str, rest[4])) or '-'
    return [word for name, value in zip(names, dashed) if (name, value) != ('held', '-') for word in (name, value)]


def without_nonce(words):
    at = words.index('nonce') if 'nonce' in words else len(words)
    return words[:at] + words[at + 2:]


class Compared:
    """A scenario, the lines that are said of it, and what differs from them."""

    def __init__(self, program, text, seed, counts):
        self.program, self.text, self.drawn, self.counts = program, text, random.Random(seed), counts
        self.playing, self.found = Player(program), list[str]()
        self.lines = Lines(self.playing, text)
        self.events = probes.toml_places.scenario_events('scenario', text)
        with tempfile.TemporaryDirectory() as folder:
            self.path = os.path.join(folder, 'scenario.toml')
            command.write(self.path, text)
            if self.lines.status in (0, 8):
                for check in (self.trace, self.sweep, self.explore, self.page):
                    check()

    def must(self, is_right, text):
        self.counts['compared'] += 1
        if not is_right:
            self.found.append(text)

    def tool(self, name, *words):
        status, written, said = run(f'tools/{name}.py', self.path, '--program', self.program, *words)
        self.must(status in (0, 1) and 'Traceback' not in said, f'{name} ends with {status}: {said[:200]}')
        return written

    def trace(self):
        """Each packet's line begins as `follow` says, with the moment and the event of its record; so does what is said of its answer."""
        lines = self.tool('trace', '--packets').splitlines()
        self.must(len(lines) == max(1, len(self.lines.packets)), f'trace has {len(lines)} lines, and there are {len(self.lines.packets)} packets')
        for line, (number, index, node, end, back) in zip(lines, self.lines.packets):
            record = self.lines.records[int(index)]
            begin, _, _ = self.lines.said(end, number)
            head, said = f'{int(record[2]):,} ms, event {record[3]}, ', line.partition(': ')[2]
            self.must(line.startswith(head) and said.startswith(begin) and f' {node} ' in head + self.events[int(record[3])] + ' ', f'{end}: trace says {line}')
            if back:
                self.must(said.partition('; its answer ')[2].startswith(self.lines.said(back, f'{number} back')[0]), f'back {back}: trace says {line}')
            self.counts[end.split(' ')[0]] += 1

    def sweep(self):
        """The row of the scenario as it stands: its packets' columns have their ends."""
        seed = re.search(r'^seed = (\d+)', self.text, re.M)[1]
        rows = list(csv.DictReader(io.StringIO(''.join(self.tool('sweep', '--seeds', f'{seed}..{seed}', '--jobs', '1').splitlines(keepends=True)[1:]))))
        for number, index, _, end, _ in self.lines.packets:
            column = f'packet_{self.lines.records[int(index)][3]}'
            due = self.lines.said(end, number)[1]
            self.must(len(rows) == 1 and rows[0].get(column) == due, f'{end}: sweep has {rows[0].get(column)} at {column}, and it is {due}')
        phases = {line.split(' ')[2]: line.split(' ')[3] for line in self.lines.last if line.split(' ')[5:6] == ['due']}
        for client, phase in phases.items():
            said = rows[0].get(client, '')
            self.must(said.startswith(('asks_', 'restarted', 'silent')) == (phase in ('cone', 'restricted', 'secondary')), f'{client} is {phase}, and sweep has {said}')

    def explore(self):
        """The packet of an event, maybe with a loss or a repeat: each kind of schedule, played as it is to be pasted."""
        events = [int(self.lines.records[int(index)][3]) for _, index, *_ in self.lines.packets]
        if not events:
            return
        event, more = self.drawn.choice(events), self.drawn.choice(([], ['--lose', '1'], ['--repeat', '1']))
        _, written, said = run('tools/explore.py', self.path, '--program', self.program, '--event', str(event), '--most', str(SCHEDULES), '--jobs', '1', *more)
        rows = written.splitlines()
        self.must(rows or 'nothing is left to deliver' in said, f'explore of event {event} says {said[:200]}')
        for at, row in enumerate(rows):
            kind = ROW.fullmatch(row)
            if kind:
                below = rows[at + 1:] + ['']
                schedule = next(one for one in below if 'without' not in one)
                numbers = re.findall(r'"(deliver \d+)"', schedule) if kind[2] != 'nothing is delivered' else []
                self.schedule(event, kind, numbers)

    def schedule(self, event, kind, deliveries):
        text = probes.with_first(self.text, event + 1)
        played = Lines(self.playing, probes.with_events(text, deliveries) if deliveries else text)
        end = next((end for _, index, _, end, _ in played.packets if int(played.records[int(index)][3]) == event), '')
        self.must(end.startswith('arrived') == (kind[1] == 'arrives'), f'event {event}, {deliveries}: explore says it {kind[1]}, and it is {end}')
        fates = [record[6] for record in played.records if int(record[3]) > event]
        self.must(fates == (kind[2].split(' ') if deliveries else []), f'event {event}, {deliveries}: explore says {kind[2]}, and it is {fates}')
        self.counts['schedules'] += 1

    def page(self):
        """The data of a page, from the first record on; and what it has of the nodes where it begins with any other."""
        shown = json.loads(json.dumps(view.view_of(self.playing, self.text, 'x')))
        self.must([record['line'] for record in shown['records']] == self.lines.report[:-1], 'the page has other records')
        self.packets(shown)
        self.nodes(shown, 0)
        made, count = told.Told(self.playing, self.text), len(self.lines.records)
        for first in self.drawn.sample(range(count), min(count, WINDOWS)):
            self.nodes(json.loads(json.dumps(view.View(made, 'x', first=first).whole())), first)

    def packets(self, shown):
        self.must(len(shown['packets']) == len(self.lines.packets), f'the page has {len(shown["packets"])} packets, not {len(self.lines.packets)}')
        for packet, (number, index, node, end, _) in zip(shown['packets'], self.lines.packets):
            begin, _, at = self.lines.said(end, number)
            self.must([packet['record'], packet['state'], packet['end']] == [int(index), end.split(' ')[0], at] and packet['said'].startswith(node)
                      and packet['said'].partition(': ')[2].startswith(begin), f'{end}, decided at {at}: the page has {packet}')

    def nodes(self, shown, first):
        """What each record says of the nodes, and what they keep before the first one."""
        said = collections.defaultdict(list)
        for line in self.lines.state:
            index, _, node, *words = line.split(' ')
            said[int(index) if index != '-' else -1].append([node, *without_nonce(words)])
        for record, patches in zip(shown['records'], shown['patches']):
            due = said[record['index']]
            self.must([[one[0], *words_of(one)] for one in patches] == due, f'record {record["index"]}: the page has {patches}, and state says {due}')
        now = shown['records'][0]['moment'] if shown['records'] else 0
        kept = {tuple([key[0], *without_nonce(words)]) for key, words in self.lines.kept(first, now).items()}
        base = {tuple([one[0], *words_of(one)]) for one in shown['base']}
        # A try that no longer counts is left out of what a window begins with: `state` names it until another one takes its place.
        self.must({aged(one, now) for one in kept} == {aged(one, now) for one in base}, f'before record {first}: the page has {base ^ kept}')
        self.counts['records'] += len(shown['records'])


def aged(words, now):
    """The words of a peer, with the tries that count now."""
    if words[1] != 'peer':
        return words
    at = words.index('tries') + 1
    tries = [moment for moment in words[at].split(',') if moment != '-' and now < int(moment) + LISTED_MS]
    return (*words[:at], ','.join(tries) or '-', *words[at + 1:])


def faults_of(program, text, seed, counts):
    """What the tools say of a scenario that isn't what the program says."""
    return Compared(program, text, seed, counts).found
