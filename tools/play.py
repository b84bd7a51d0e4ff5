#!/usr/bin/env python3
"""A prompt over a scenario: type an event, see its records. The scenario is played anew each time.

  EVENT          an event of docs/SCENARIOS.md, as `next` or `host a b 00`: is added, played, and its records are shown
  all            delivers with `next` until nothing is left; after 1,000 deliveries it stops, and says so
  until FATE     the same, until a record has this fate
  undo           takes the last event back, or all that the last `all` or `until` added
  report         the whole report
  events         the events so far, with their numbers
  nodes          each node that acted: its address, or how far it is
  wire           each entry: who made it, where it goes, what came of it
  why [N]        what became of each packet that a host handed in, or of the packet of event N
  trace [N]      what came of each event, as a tree, or of event N
  flow [N [M]]   who sent what to whom, as a ladder of 80 columns: all records, from record N on, or those from N to M
  save FILE      writes the scenario as it is now; where FILE is there, `save FILE` again writes over it
  help [WORD]    this, or the line on a word or an event; ? is the same
  quit, exit     ends, as the end of the input does

Where somebody types, Tab completes words, nodes and entries, and Ctrl-C drops the line. An empty line does nothing.
"""
import os
import re
import sys

sys.dont_write_bytecode = True

import command
import completion
import fates
import ladder_text
import ends
import topology
import trace
import wanted
from ladder import Ladder
from prompted import Session, shown
from report import HANDED_IN, Report
from told import Told, teller_of


def report_of(session):
    return Report(session.written)


def told_of(session):
    """What is told of the scenario as it is now."""
    return Told(teller_of(session.program), session.whole(), session.chain, session.written)


def reported(session):
    """The whole report."""
    return [shown(record) for record in session.records()] + session.written.splitlines()[-1:]


def nodes(session, words):
    """The state of each node that acted, as the records tell it."""
    report = report_of(session)
    lines = []
    for node in dict.fromkeys(record.node for record in report.records if record.node != '-'):
        last = report.of_node(node)[-1]
        address = report.address_at(node, None)
        lines.append(f'{node}: {address or "no address" if node in report.clients() else "acted"}, last {last.fate} at {last.moment:,} ms')
    return lines


def wire(session, words):
    report = report_of(session)
    lines = []
    for entry in report.entries.values():
        came = ', '.join(f'{record.node}: {record.fate}' for record in report.delivered(entry)) or 'never delivered'
        lines.append(f'#{entry.number} {entry.maker.node}, {report.content(entry)}, {entry.way}, {entry.length} bytes: {came}')
    return lines or ['the wire is empty']


def why(session, words):
    told = told_of(session)
    lines = [f'{session.events()[record.event]}: {ends.end_of(told, record)}' for record in told.report.records
             if record.act in HANDED_IN and (not words or record.event == number_of(words))]
    return lines if lines else [no_packet(session, words)]


def no_packet(session, words):
    number = number_of(words)
    if number is None or number >= len(session.events()):
        return f'there is no event {words[0]}' if words else 'no host handed in a packet'
    return f'event {number} handed in no packet: `save FILE`, and `./teredo trace FILE --event {number}` has what came of it'


def number_of(words):
    return int(words[0]) if words and words[0].isdecimal() else None


def trees(session, words):
    """What came of each event, or of one."""
    told = told_of(session)
    if words:
        number = number_of(words)
        return [f'there is no event {words[0]}'] if number is None else trace.event_lines(told, number)
    told.kept  # by which entries are named that let go what waited
    return [line for record in told.report.records if trace.is_root(record) for line in trace.tree_of(told, record)] or ['nothing has happened yet']


def flow(session, words):
    """The ladder of all records, or of those from a number on, up to another."""
    numbers = [number_of([word]) for word in words]
    if None in numbers:
        return usage('flow')
    told = told_of(session)
    told.kept  # by which entries are named that let go what waited
    first, last = (numbers + [0, None][len(numbers):])
    ladder = Ladder(told.report, first, last, known=told.known)
    return ladder_text.narrow_of(ladder) or ['nothing has happened yet']


def save(session, words):
    path = words[0]
    if os.path.exists(path) and session.asked != path:
        session.asked = path
        return [f'{path} is there already: save {path} again writes over it']
    session.asked = None
    command.write(path, session.whole())
    return [f'saved as {path}']


def told(session, words):
    """The help, or what is said of one word."""
    if not words:
        return __doc__.strip().splitlines()
    if words[0] in wanted.events():
        shape, means = wanted.events()[words[0]]
        return [f'  {" ".join(shape)}: {means}']
    return usage(words[0]) or trace.explained(words[0]) or [f'there is no word {words[0]}; help lists them']


def usage(first):
    """The line of the help on a command."""
    return [line for line in __doc__.splitlines() if re.match(rf'  (\w+, )?{re.escape(first)}[ ,]', line)]


# A command, how many words it wants, and what it answers.
COMMANDS = {
    'report': ((0,), lambda session, words: reported(session)),
    'events': ((0,), lambda session, words: [f'{at} {event}' for at, event in enumerate(session.events())]),
    'nodes': ((0,), nodes),
    'wire': ((0,), wire),
    'why': ((0, 1), why),
    'trace': ((0, 1), trees),
    'flow': ((0, 1, 2), flow),
    'save': ((1,), save),
    'undo': ((0,), lambda session, words: session.undo()),
    'help': ((0, 1), told),
    '?': ((0, 1), told),
}
DELIVERING = ('all', 'until')
ENDING = ('quit', 'exit')


def answer(session, line):
    """The lines that a typed line is answered with."""
    first, *words = line.split(' ')
    if first in COMMANDS and len(words) in COMMANDS[first][0]:
        return COMMANDS[first][1](session, words)
    if first == 'all' and not words:
        lines, count = session.deliver(lambda record: False)
    elif first == 'until' and len(words) == 1:
        lines, count = session.deliver(lambda record: record.fate == words[0])
    elif usage(first):
        return usage(first)  # the command, with other words
    else:
        lines, count = session.add(line)
    session.steps += [int(count)] if count else []
    return lines


def lines_of(file, session):
    """The typed lines; where somebody types them, each behind a prompt, with the keys of a shell where Python has them."""
    is_typed = file.isatty()
    if is_typed:
        completion.begin(lambda: candidates(session))
    while True:
        try:
            line = input('> ') if is_typed else next(file)
        except (EOFError, StopIteration):
            return
        except KeyboardInterrupt:  # the line is dropped
            if not is_typed:
                raise
            print(flush=True)
            continue
        if line.strip() in ENDING:
            return
        if line.strip():
            yield line.strip()


def candidates(session):
    """What may stand at each place of a line: its first words, and of each event its words in their order."""
    known = topology.topology_of(session.whole(), session.chain)
    hosts = known.of('client') + known.of('native')
    entries = [str(number) for number in report_of(session).entries]
    places = {'A': hosts, 'B': hosts, 'NAT': known.of('nat'), 'CLIENT': known.of('client'), 'N': entries, 'HEX': ['00'], 'NODE': list(known.kinds)}
    shapes = {word: shape[1:] for word, (shape, _) in wanted.events().items()}
    shapes['restart'] = ['NODE']
    commands = [*COMMANDS, *DELIVERING, *ENDING]
    events = [str(number) for number in range(len(session.events()))]
    more = {'help': [commands + list(shapes)], 'until': [list(fates.FATES)], 'why': [events], 'trace': [events], 'save': [None]}
    return commands + list(shapes), {**{word: [places.get(place, []) for place in shape] for word, shape in shapes.items()}, **more}


def main():
    parser = command.with_chain(command.with_program(command.words(__doc__)))
    parser.add_argument('file', metavar='FILE', help='a scenario')
    options = parser.parse_args()
    command.tell_fates()
    session = Session(options.program, options.file, options.chain)
    command.show(reported(session))
    for line in lines_of(sys.stdin, session):
        try:
            command.show(answer(session, line))
        except command.Refusal as fault:
            command.show([str(fault)])
        except KeyboardInterrupt:  # what was typed takes too long
            if not sys.stdin.isatty():
                raise
            session.again()
            command.show(['dropped'])
    return 0


if __name__ == '__main__':
    command.run(main)
