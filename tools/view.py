"""A scenario as a page shows it: the report, the picture, what each record means, and what every node then knows; or its faults.

All of it are dictionaries, lists, texts and numbers, to be written as JSON.
"""
import bisect

import causes
import chains
import ends
import fates
import ladder_svg
import lint
import matrix
import rulebook
import toml_places
import trace
import windows
from followed import LOST
from kept import Client, Lets, Peer, Port, Void
from ladder import Ladder
from report import HANDED_IN
from told import Told

RECORDS_MAX = 2000  # that a page shows at once
PACKETS_MAX = 500  # of hosts, that a page shows at once
NAT_KINDS = {'cone': 'full cone', 'restricted': 'restricted cone', 'port': 'port restricted cone', 'symmetric': 'symmetric'}
SAID = {5: 'the report could not be written', 7: 'not enough memory'}


def faults_of(status, text, said):
    """What is wrong with a text, and where."""
    chain = chains.chain_of(text)
    found = []
    for line, fault in lint.findings(status, text, said, chain):
        at = toml_places.place_of(text, fault.place) if fault.place is not None else (None, None, '')
        found.append({'said': line, 'line': at[0], 'column': at[1], 'length': fault.length, 'wanted': fault.text})
    return found


def about(node, known):
    """A node in a line."""
    table, kind = known.tables[node], known.kinds[node]
    if kind == 'nat':
        behind = f', behind {known.outer[node]}' if node in known.outer else ''
        return f'{NAT_KINDS.get(table["kind"])} NAT, {table["external"]}, idle {table["idle"]:,} ms{behind}'
    if kind == 'client':
        return f'client behind {table["nat"]}, {table["inside"]}, of {table["server"]}'
    if kind == 'server':
        return f'server, P {table["primary"]}, Q {table["secondary"]}'
    return f'relay, {table["at"]}, {table["six"]}' if kind == 'relay' else f'IPv6 host, {table["six"]}, behind {table["relay"]}'


def said_of(node, what):
    """What `state` says of a node, as a list that the page's script reads."""
    if isinstance(what, Void):
        return [node, 'void'] if what.inside is None else [node, 'forget', what.inside]
    if isinstance(what, Port):
        return [node, 'port', what.number, what.inside, what.toward, what.until]
    if isinstance(what, Lets):
        return [node, 'lets', what.number, what.source, what.until]
    if isinstance(what, Peer):
        return [node, 'peer', what.address, what.at, what.heard, what.touched, what.tries, what.waits, what.held]
    return [node, 'own', what.phase, what.address, what.due] if isinstance(what, Client) else [node, 'own', None, None, what.due]


class View:
    """A scenario that was played."""

    def __init__(self, told, name, first=0, event=None):
        self.told, self.text, self.name, self.report, self.known = told, told.text, name, told.report, told.known
        opened = windows.windows_of(told.kept, told.known)  # by whose lines entries are named that let go what waited
        self.places = toml_places.read(told.text).value['events'].value
        self.first = max(0, min(self.window_of(event) if event is not None else first, len(self.report.records) - 1))
        self.records = self.report.records[self.first:self.first + RECORDS_MAX]
        self.handed_in = told.handed_in if len(told.handed_in) <= PACKETS_MAX else [record for record in self.records if record.act in HANDED_IN][:PACKETS_MAX]
        self.shown = {record.index: ends.end_of(told, record) for record in self.handed_in}
        self.ends = {}
        for record in self.handed_in:
            end = self.shown[record.index]
            if end.reason:
                self.ends.setdefault(end.record.index, {}).setdefault(end.reason, []).append(record.event)
        self.ladder = Ladder(self.report, self.first, self.first + RECORDS_MAX - 1, (), self.known, opened)

    def whole(self):
        return {
            'status': self.told.status, 'name': self.name, 'chain': self.told.chain, 'totals': self.report.totals,
            'first': self.first, 'opening': self.opening(), 'count': len(self.report.records), 'most': RECORDS_MAX,
            'nodes': [{'name': node, 'kind': kind, 'about': about(node, self.known)} for node, kind in self.known.kinds.items()],
            'records': [self.record(record) for record in self.records], 'lines': self.lines(), 'rules': self.rules(),
            'pictures': [self.picture(False), self.picture(True)], 'rows': [row.record for row in self.ladder.rows],
            'carried': [row.entry for row in self.ladder.rows],
            'steps': self.steps(), 'columns': self.columns(), 'row': [ladder_svg.row_at(0), ladder_svg.ROW],
            **self.kept(), 'untold': self.told.untold, 'packets': self.packets(), 'packets_in_all': len(self.told.handed_in)}

    def kept(self):
        """What each node keeps where the records begin, and what `state` says of each of these; whose addresses and endpoints inside are."""
        kept = self.told.kept
        if kept is None:
            return {'has_state': False, 'base': [], 'patches': [[] for _ in self.records], 'names': {}, 'insides': {}}
        count = kept.before(self.first)
        now = self.records[0].moment if self.records else 0
        names = {what.address: line.node for line in kept.lines for what in [line.what] if isinstance(what, Client) and what.address}
        names |= {address: name for name, address in self.told.fixed.items()}
        patches = [[said_of(line.node, line.what) for line in kept.of_record(record.index)] for record in self.records]
        insides = {f'{nat} {port.inside}' for nat in self.known.of('nat') for line in kept.lines for port in [line.what] if line.node == nat and isinstance(port, Port)}
        return {'has_state': True, 'base': [said_of(node, what) for node, what in kept.state(count, now)], 'patches': patches, 'names': names,
                'insides': {inside: causes.whose(self.told, *inside.split(' ')) for inside in sorted(insides)}}

    def window_of(self, event):
        """Where the records begin that are shown with the first one of an event, or of one behind it."""
        index = next((record.index for record in self.report.records if record.event >= event), 0)
        return index - index % RECORDS_MAX

    def steps(self):
        """The rows of the picture in words, each with the windows of NATs that it opens or finds shut."""
        turns = self.turns()
        return [[row.record, row.moment, row.source, row.target or '', row.label, row.fate, turns.get(at, [])] for at, row in enumerate(self.ladder.rows)]

    def turns(self):
        """From a row to the windows that are open from it on, or shut from it on."""
        found = {}
        for bar in self.ladder.bars:
            window, whom, whose = bar.window, windows.whom_of(bar.window, self.known), self.known.whose(bar.window.nat, bar.window.inside)
            found.setdefault(bar.first, []).append(f'{window.nat} {"is open" if bar.is_older else "opens"} for {whose}: lets in {whom}, '
                                                   f'until {windows.shut_of(window, self.known)}')
            found.setdefault(bar.end, []).append(f'{window.nat} has shut for {whose}: doesn\'t let in {whom} any more')
        return found

    def picture(self, has_ends):
        return '\n'.join(ladder_svg.svg_of(self.ladder, f'{self.name}: who sent what to whom', has_ends)) + '\n'

    def columns(self):
        picture = ladder_svg.Picture(self.ladder, '')
        return [[node, round(picture.at(node))] for node in self.ladder.nodes]

    def kind(self, record):
        return self.known.kinds.get(record.node)

    def rule_key(self, record):
        return ' '.join([str(self.kind(record)), record.act.partition(':')[0], record.fate])

    def rules(self):
        return {self.rule_key(record): rulebook.told(record, self.kind(record)) for record in self.records}

    def record(self, record):
        said = {'index': record.index, 'moment': record.moment, 'event': record.event, 'node': record.node, 'fate': record.fate,
                'line': record.line, 'rule': self.rule_key(record)}
        entry = self.report.entry_of(record)
        entries = [*([entry] if entry else []), *record.entries]
        said['entries'] = [[one.number, f'#{one.number} {self.report.content(one)}, {one.way}, {one.length} bytes'] for one in entries]
        if entry is not None:
            said['way'] = self.way(entry, record)
        why = self.reasons(record)
        return said | ({'why': why} if why else {})

    def reasons(self, record):
        """Why what a record is about came no further: what was dropped, what wasn't sent, and each packet of a host that ends here."""
        found = [causes.of_drop(self.told, record)] if fates.is_drop(record.fate) and not record.gone else []
        found += [f'!{loss.word}: {causes.of_loss(self.told, loss)}' for loss in record.losses]
        ended = [(reason, events) for reason, events in self.ends.get(record.index, {}).items() if reason not in ' '.join(found)]
        return found + [f'the packet{"s" * (len(events) > 1)} of event{"s" * (len(events) > 1)} {", ".join(map(str, events))}: {reason}' for reason, events in ended]

    def way(self, entry, record):
        """The nodes that an entry passed, as far as it came."""
        maker = entry.maker.node if entry.maker.node != '-' else 'stranger'
        return [maker, *self.ladder.way(entry.maker, entry, record.node), *([record.node] if record.node != '-' else [])]

    def lines(self):
        """From each event of these records to its line in the text."""
        breaks = [at for at, letter in enumerate(self.text) if letter == '\n']
        numbers = sorted({record.event for record in self.records})
        return {number: bisect.bisect_left(breaks, self.places[number].start) + 1 for number in numbers if number < len(self.places)}

    def packets(self):
        return [{'record': record.index, 'said': self.packet(record), 'state': self.shown[record.index].state,
                 'end': self.shown[record.index].record.index} for record in self.handed_in]

    def packet(self, record):
        """A packet that a host handed in, and what became of it."""
        target = self.told.target(record)
        whom = f' to {target}' if target else ''
        return f'{record.node}{whom}, {record.moment:,} ms, event {record.event}: {self.shown[record.index]}'

    def opening(self):
        """The record that matters first: where the first packet ended that was lost, else where the first one was handed in, else the first
        drop. One that isn't shown here is passed over."""
        lost = [end.record.index for end in self.shown.values() if end.state == LOST]
        drops = (record.index for record in self.records if fates.is_drop(record.fate))
        known = (at - self.first for at in [*lost[:1], *(record.index for record in self.handed_in[:1]), *drops])
        return next((at for at in known if 0 <= at < len(self.records)), 0)


def reached(lines):
    """The answer of `reach`: its pairs, what their words mean, and the line of totals."""
    if lines is None:
        return None
    words, told = matrix.pairs(lines), matrix.told()
    return {'pairs': [[*hosts, word] for hosts, word in words.items()], 'means': {word: told.get(word, '') for word in dict.fromkeys(words.values())},
            'total': lines[-1]}


def view_of(playing, text, name='scenario.toml', first=0, event=None):
    """What there is to be shown of a scenario's text: the records from one on, or those around an event."""
    told = Told(playing, text)
    status, written = told.played
    if status in (3, 12):
        return {'status': status, 'name': name, 'faults': faults_of(status, text, written.strip())}
    if status not in (0, 8):
        return {'status': status, 'name': name, 'faults': [{'said': written.strip() or SAID.get(status, f'status {status}'), 'line': None,
                                                            'wanted': 'a scenario that can be played'}]}
    shown = View(told, name, first, event).whole()
    return shown | {'reach': reached(playing.reach(text) if status == 0 else None)}
