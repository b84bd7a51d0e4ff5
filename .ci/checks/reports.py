"""Tools over a report, on each example.

- trace: tests/stored/causes.txt has what became of packets, by scenario and event, as read by hand from the reports and from what
  `state` says; what is stored of the examples gives the same, and so does the program. A report alone says of no packet where it went.
  So has it the words of `reach` that say why. A tree has each entry once, and each delivery. The numbers of tools/kept.py are the
  code's.
- flow: a ladder has a row for each record but the ends of `advance`, and for each entry that was lost; a picture is XML
  with an arrowhead or a cut for each arrow, and has no script. The pictures of docs/GUIDE.md are made anew. The narrow form
  keeps to its 80 columns, and at a terminal all forms to its own; each NAT of a way is a column. The ports at the ends are those of the entries, an unknown name and an empty range are refused,
  columns stand as the nodes do.
- json, csv: each line of each example's report says in JSON and in the table what it says itself; docs/report.schema.json
  takes each line, where Python's `jsonschema` is installed.
"""
import csv
import json
import os
import re
from xml.etree import ElementTree

import capture
import command
import ends
import flow
import follow
import followed
import generated
import json_lines
import kept
import ladder_svg
import ladder_text
import matrix
import player
import report
import state
import told
import topology
import trace
import web
from followed import ARRIVED
from ladder import LEFT_OUT, Ladder
from player import STDIN
from stored import SVG, TOP, names, path_of, report_of, run
from tally import skip

PICTURES = os.path.join(TOP, 'docs', 'pictures')
WIDTHS = (40, 60, 79, 80, 99, 120, 131, 200)  # of terminals; some of them are asked for ports
DRAWN = {'two_port_restricted': ['--from', '34', '--nodes', 'a,n1,s1,n2,b'],
         'failed_bubble': ['--from', '35', '--nodes', 'a,n1,s1,n2,b'],
         'client_to_native': ['--from', '19', '--to', '28', '--nodes', 'a,s1,r1,h1'],
         'two_carriers': ['--from', '20', '--to', '25', '--nodes', 'a,home1,carrier1,s1,carrier2,home2,b']}
SEEDS, GENERATED = range(1, 13), 300  # of generated scenarios, and their events
# A number of a tool, and the constant of the code that it has to be.
NUMBERS = (
    (kept.FRESH_MS, 'peer_list/src/limits.rt', 'FRESH_MS'), (kept.LISTED_MS, 'peer_list/src/limits.rt', 'LISTED_MS'),
    (kept.TRY_GAP_MS, 'peer_list/src/limits.rt', 'TRY_GAP_MS'), (kept.TRIES_MAX, 'peer_list/src/limits.rt', 'TRIES_MAX'),
    (web.TEXT_MAX, 'scenario/src/reader.rt', 'TEXT_MAX'), (capture.PIECE_BYTES, 'commands/src/capture_file.rt', 'CAPTURE_MAX'),
    (generated.COUNT_MAX, 'events/src/event.rt', 'EVENTS_MAX'))


def tellers(program):
    """Who tells of the examples: what is stored of them, and the program, where it says what nodes keep."""
    stored, built = player.Stored(), told.Program(program)
    yield stored
    if told.Told(built, command.read(path_of('cone_client'))).kept is not None:
        yield built
    else:
        skip('why packets did not arrive, by the program', 'it does not answer `state`')


def told_of(name, teller):
    return told.Told(teller, command.read(path_of(name)))


def cause_rows():
    """Rows NAME EVENT: TEXT of tests/stored/causes.txt."""
    rows = re.findall(r'^(\w+) (\d+): (.*)$', command.read(os.path.join(TOP, 'tests', 'stored', 'causes.txt')), re.M)
    return {(name, int(event)): text for name, event, text in rows}


def check_causes(program):
    """Each row as what is stored gives it, and as the program does; and a row for each packet that didn't arrive. A report alone says of none
    where it went."""
    due, found = cause_rows(), []
    for teller in tellers(program):
        said = {(name, record.event): ends.end_of(one, record) for name in names() for one in [told_of(name, teller)] for record in one.handed_in
                if is_wanted(name, record)}
        texts = {key: str(end) for key, end in said.items() if end.state != ARRIVED}
        found += [f'{key}: {texts.get(key)}, and the row is {due.get(key)}' for key in sorted({*texts, *due}) if texts.get(key) != due.get(key)]
    for name in names():
        one = told.alone(command.read(path_of(name) + '.stdout'))
        found += [f'{name} {record.event}, by the report alone: {ends.end_of(one, record)}' for record in one.handed_in
                  if ends.end_of(one, record).state != ends.UNSAID]
    return found


def is_wanted(name, record):
    """Whether a packet has to have its row: it is none of the 256 that fill a list of peers."""
    return name != 'full_peer_list' or record.fate != 'queued'


def check_reach_words(program):
    """Each word of `reach` that says why a packet didn't come has its row, and no packet has another one; where nothing knows `reach`
    there is none."""
    due = set(re.findall(r'^(\w+) (\d+) (\w+)$', command.read(os.path.join(TOP, 'tests', 'stored', 'causes.txt')), re.M))
    found, stored = set(), player.Stored()
    for name in names():
        one, before = told_of(name, stored), matrix.Before(program, command.read(path_of(name)))
        for record in one.handed_in:
            said = re.search('; reach before it: (.*)$', trace.end_text(one, record, before))
            found |= {(name, str(record.event), said[1])} if said else set()
    return [f'{row} is {"not told of" if row in due else "without a row"}' for row in sorted(found ^ due)] + faults_without_reach()


def faults_without_reach():
    """A packet that didn't come, where nothing is built, and where the program doesn't know `reach`."""
    one, found = told_of('two_symmetric', player.Stored()), []
    for program in ('/nowhere', '/bin/false'):
        said = trace.end_text(one, one.handed_in[0], matrix.Before(program, one.text))
        found += [] if said == str(ends.end_of(one, one.handed_in[0])) else [f'{program}: {said}']
    return found


def check_said(program):
    """What the program says of each packet and of each node is read whole, of each example and of generated scenarios."""
    teller, found = told.Program(program), []
    texts = {name: command.read(path_of(name)) for name in names()}
    texts |= {f'generated {seed}': generated.scenario(seed, GENERATED) for seed in SEEDS}
    for name, text in texts.items():
        one = told.Told(teller, text)
        if one.kept is None or one.followed is None:
            skip('where packets went, and what nodes keep', 'the program does not answer `follow` and `state`')
            break
        if one.followed.lines() != one.ask('follow', STDIN, one.chain or '-')[1].splitlines():
            found.append(f'{name}: the lines of follow are not made again')
        if [f'{"-" if line.record < 0 else line.record} {line.moment} {line.node} {kept.text_of(line.what)}' for line in one.kept.lines] != stated(one):
            found.append(f'{name}: the lines of state are not made again')
    return found


def stated(one):
    """The lines of `state` as the program writes them, without the totals."""
    return one.ask('state', STDIN, one.chain or '-', 'each')[1].splitlines()[:-1]


def check_numbers(program):
    """The numbers that tools have, some of them from docs/RULES.md, are the code's."""
    found = []
    for number, path, name in NUMBERS:
        code = re.search(rf'^pub const {name}: \w+ = ([\d_]+);', command.read(os.path.join(TOP, 'crates', path)), re.M)
        if code is None or int(code[1]) != number:
            found.append(f'{path} has {name} {code and code[1]}, and a tool {number}')
    return found


def check_trees(program):
    """Each entry and each delivery stands in a tree just once, also by a report alone."""
    found, stored = [], player.Stored()
    for name in names():
        for one in (told_of(name, stored), told.alone(command.read(path_of(name) + '.stdout'))):
            lines = [line for record in one.report.records if trace.is_root(record) for line in trace.tree_of(one, record)]
            entries = [int(line.split()[0][1:]) for line in lines if re.match(r' +#\d+ ', line)]
            deliveries = [line for line in lines if re.match(r' {4,}[\d,]+ ms, ', line)]
            known = sum(record.delivered in one.report.entries for record in one.report.records)
            if sorted(entries) != sorted(one.report.entries) or len(deliveries) != known:
                found.append(f'{name}: the tree has {len(entries)} entries and {len(deliveries)} deliveries')
    return found


def check_ladders(program):
    found = []
    for name in names():
        ladder = Ladder(report_of(name))
        told = ladder.report
        records = sum(record.fate != 'no_entry' and not (record.act in LEFT_OUT and record.fate == 'done') for record in told.records)
        lost = sum(not told.delivered(entry) for entry in told.entries.values()) + sum(len(record.losses) for record in told.records)
        if len(ladder_text.text_of(ladder)) != 1 + records + lost:
            found.append(f'{name}: the ladder has {len(ladder.rows)} rows, not {records} and {lost}')
        picture = ElementTree.fromstring('\n'.join(ladder_svg.svg_of(ladder, name)))
        kinds = [part.tag.replace(SVG, '') for part in picture.iter()]
        arrows = sum(row.is_arrow and not row.is_lost and not row.is_dropped and row.source != row.target for row in ladder.rows)
        if kinds.count('polygon') != arrows or set(kinds) - {'svg', 'title', 'style', 'rect', 'line', 'text', 'circle', 'polygon'}:
            found.append(f'{name}: the picture has {kinds.count("polygon")} arrowheads, not {arrows}, and {set(kinds)}')
    return found


def check_columns(program):
    """Each NAT that a datagram passes is a column, with a ring where it is passed; what a NAT turns back ends there; a port stands at the
    NAT that has it; and a delivery of nothing is no row, also where an entry of its number is made later."""
    found = []
    for name in names():
        text, told = command.read(path_of(name)), report_of(name)
        known = topology.topology_of(text)
        ladder = Ladder(told, known=known)
        ways = {nat for client in told.clients() for nat in known.way_out(client)}
        found += [f'{name}: the NAT {nat} is no column' for nat in sorted(ways - set(ladder.nodes))]
        at = {node: number for number, node in enumerate(ladder.nodes)}
        found += [f'{name}: {client} stands behind its NAT' for client in told.clients() for nat in known.way_out(client)
                  if (at[client] < at[nat]) != (at[client] < at[known.way_out(client)[-1]])]
        turned = [row for row in ladder.rows if row.fate == '!hairpin']
        found += [f'{name}: a hairpin ends at {row.target}' for row in turned if not row.is_turned or known.kinds[row.target] != 'nat' or row.target in row.passes]
        found += [f'{name}: record {row.record} delivers nothing, and is drawn' for row in ladder.rows if told.records[row.record].fate == 'no_entry']
        rings = sum(len(row.passes) for row in ladder.rows if row.is_arrow and not row.is_lost)
        drawn = '\n'.join(ladder_svg.svg_of(ladder, name)).count('fill="#fff" stroke="#000"/>') - len(ladder.nodes)
        found += [f'{name}: {drawn} rings for {rings} passages'] if drawn < rings else []
    two = Ladder(report_of('two_homes'), known=topology.topology_of(command.read(path_of('two_homes'))))
    ports_at = {row.ports_at[0] for row in two.rows if row.source == 'a' and row.target == 's1'}
    if two.nodes[:6] != ['a', 'home1', 'b', 'home2', 'carrier', 's1'] or ports_at != {'carrier'}:
        found.append(f'two_homes: {two.nodes}')
    later = report.Report('0 0 0 deliver:0 - no_entry\n1 0 1 tick a rs_cone #0=198.51.100.1:1024>192.0.2.1:3544/61\n' + 'total records 2 entries 1 delivered 0 handed 0 kept 0 dropped 1\n')
    return found + ([] if [row.record for row in Ladder(later).rows] == [1, 1] else ['a delivery of nothing is drawn'])


def check_pictures(program):
    found = []
    for name, options in DRAWN.items():
        status, made, said = run('tools/flow.py', path_of(name), '--program', program, '--svg', *options)
        if status or made != command.read(os.path.join(PICTURES, name + '.svg')):
            found.append(f'docs/pictures/{name}.svg is not what flow makes {said}')
    return found


def check_flow(program):
    found = []
    for name in names():
        lines = flow.lines_of(flow.options_of([path_of(name), '--program', program, '--narrow', '--ends']))
        found += [f'{name}: {len(line)} columns: {line}' for line in lines if len(line) > ladder_text.NARROW]
        ladder = Ladder(report_of(name))
        for width in WIDTHS:
            fitting = ladder_text.fitting_of(ladder, width % 20 == 0, width)
            found += [f'{name}, of {width} columns: {line}' for line in fitting if len(line) > width]
            whole = ''.join(fitting).replace('|', ' ')
            found += [f'{name}, of {width} columns, has lost {row.fate}' for row in ladder.rows if not row.fate.split()[0] in whole]
        wide = ladder_text.text_of(ladder, True)
        arrows = [(row, line) for row, line in zip(ladder.rows, wide[1:]) if row.is_arrow and row.source != row.target]
        found += [f'{name}: no {row.ends} in {line}' for row, line in arrows if not all(port in line for port in row.ends)]
    shown = {name: flow.lines_of(flow.options_of([path_of(name), '--program', program]))[0].split() for name in ('two_port_restricted', 'client_to_native')}
    if list(shown.values()) != [['a', 'n1', 's1', 'n2', 'b'], ['a', 'n1', 's1', 'r1', 'h1']]:
        found.append(f'columns: {shown}')
    for words in (['--nodes', 'a,x'], ['--nodes', '-'], ['--from', '999'], ['--from', '5', '--to', '4'], ['--from', '-1'], ['--to', 'x'],
                  ['--svg', '--narrow']):
        status, written, said = run('tools/flow.py', path_of('cone_client') + '.stdout', *words)
        if status != 2 or written or not said:
            found.append(f'{words}: {status}, {said}')
    hairpin = flow.lines_of(flow.options_of([path_of('behind_one_nat'), '--program', program, '--narrow']))
    if not any('!hairpin' in line and ' a -----/ n1 ' in line for line in hairpin):
        found.append('a hairpin does not go to the NAT that turns it back')
    return found


def check_forms(program):
    """JSON and the table: what each line of each report says, read back."""
    found = []
    for name in names():
        told = report_of(name)
        lines = json_lines.lines_of(told)
        again = [report_line(json.loads(json.dumps(line))) for line in lines]
        if again != command.read(path_of(name) + '.stdout').splitlines():
            found.append(f'{name}: JSON says another report, {[pair for pair in zip(again, lines)][:1]}')
        status, written, said = run('tools/csv_table.py', path_of(name) + '.stdout')
        rows = list(csv.DictReader(written.splitlines()))
        entries = sum(int(row['entries']) for row in rows)
        if status or len(rows) != len(told.records) or entries != len(told.entries) or [row['fate'] for row in rows] != [record.fate
                                                                                                                         for record in told.records]:
            found.append(f'{name}: the table has {len(rows)} rows and {entries} entries {said}')
        found += faults_by_schema(name, 'report', lines)
    return found + faults_of_told_forms()


def faults_of_told_forms():
    """`follow` and `state`: JSON that their schemas take, the lines of `follow` said again, and a table of each packet and each node."""
    found, stored = [], player.Stored()
    for name in names():
        one = told_of(name, stored)
        lines = follow.json_of(one.followed, None)
        found += faults_by_schema(name, 'follow', lines)
        if [line.get('mark', line.get('what')) for line in lines if 'what' in line] != [step.mark or step.word for step in one.followed.steps]:
            found.append(f'{name}: follow says other steps')
        found += [] if followed.followed_of('\n'.join(one.followed.lines())).lines() == one.followed.lines() else [f'{name}: the lines of follow are not read back']
        for packet in range(len(one.handed_in))[:20]:
            rows = follow.steps_of(one, one.followed, packet)
            found += [] if len(rows) == 2 + sum(step.load.packet == packet for step in one.followed.steps) else [f'{name}: packet {packet} has {rows}']
        for record in {-1, len(one.report.records) // 2, len(one.report.records) - 1} if name != 'full_peer_list' else ():
            at = state.Moment(one, one.kept, record)
            found += faults_by_schema(name, 'state', list(at.json([])))
            shown = '\n'.join(line for node in at.nodes([]) for line in at.lines(node))
            found += [f'{name}, record {record}: {what.number} is not told' for node in at.nodes([]) for what in at.whats(node)
                      if isinstance(what, kept.Port) and f'port {what.number} ' not in shown]
    return found


def report_line(line):
    """The line of a report, from what JSON says of it."""
    if 'wire' in line:
        return f'wire {line["wire"]}'
    if 'totals' in line:
        return ' '.join(['total'] + [f'{name} {number}' for name, number in line['totals'].items()])
    act = line['act'] + (f':{line["of"]}' if 'of' in line else '')
    words = [line['record'], line['ms'], line['event'], act, line.get('node', '-'), line['fate']]
    words += ['is', line['address']] if 'address' in line else []
    words += [f'handed/{line["handed"]}'] if 'handed' in line else []
    words += [f'late/{length}' for length in line.get('late', [])] + ([f'gone/{line["gone"]}'] if 'gone' in line else [])
    for mark in line.get('marks', []):
        if 'lost' in mark:
            words.append(f'!{mark["lost"]}={mark["to"]}/{mark["bytes"]}')
        else:
            six = f'six:{mark["relay"]}' if 'relay' in mark else 'six'
            words.append(f'#{mark["entry"]}={six if "ipv6" in mark else mark["from"] + ">" + mark["to"]}/{mark["bytes"]}')
    return ' '.join(map(str, words))


def faults_by_schema(name, schema, lines):
    try:
        import jsonschema
    except ImportError:
        skip('what the schemas say', 'no jsonschema for this Python')
        return []
    validator = jsonschema.Draft7Validator(json.loads(command.read(os.path.join(TOP, 'docs', f'{schema}.schema.json'))))
    return [f'{name}: {fault.message[:200]}' for line in lines for fault in validator.iter_errors(line)]
