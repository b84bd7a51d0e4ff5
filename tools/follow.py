#!/usr/bin/env python3
"""Where each packet went, and at which records that was decided.

FILE is a scenario; `-` is standard input. A row is a record that a packet came to: `goes` with the entry that carries it on, `waits`,
`held`, `arrives` or `ends`; `back` is the answer that a native host makes to an echo request. Packets are numbered as hosts hand them in.

  follow FILE              each packet with its end
  follow FILE --packet 2   the records that packet 2 came to, and its end
  follow FILE --lines      the lines of the program's own `follow FILE CHAIN`
  follow FILE --json       an object a line: steps, packets, totals; docs/follow.schema.json has the keys

It is read from the lines of the program's own `follow FILE CHAIN`; if nothing is built, only the examples have it.
"""
import argparse
import json
import sys
from typing import Any

sys.dont_write_bytecode = True

import aligned
import command
import ends
from fates import is_drop
from followed import End, Followed, Packet, Step
from told import Told, teller_of
from trace import short

HEAD = ('record', 'ms', 'node', 'fate', 'packet', 'what', 'carried by')


def options_of(words: list[str]) -> argparse.Namespace:
    parser = command.with_chain(command.with_program(command.words(__doc__)))
    parser.add_argument('file', metavar='FILE', help='a scenario')
    look = parser.add_mutually_exclusive_group()
    look.add_argument('--packet', metavar='K', type=command.number, help='only this packet')
    look.add_argument('--lines', action='store_true', help='the lines as the program has them')
    parser.add_argument('--json', action='store_true', help='an object a line')
    return parser.parse_args(words)


def told_of(options: argparse.Namespace) -> Told:
    told = Told(teller_of(options.program), command.read(options.file), options.chain, path=options.file)
    assert told.events is not None  # where it is no scenario, that is said first
    told.must_play()
    return told


def row_of(step: Step) -> list[str]:
    return [str(step.record), f'{step.moment:,}', step.node, command.red(step.fate, is_drop(step.fate)), str(step.load), step.word, step.mark]


def packet_lines(told: Told, followed: Followed) -> list[str]:
    """Each packet with its end, in a line."""
    rows = [['packet', 'record', 'node', 'event', 'end']]
    for packet in followed.packets:
        record = told.report.records[packet.record]
        rows.append([str(packet.number), str(packet.record), packet.node, short(told.events[record.event]), str(ends.end_of(told, record))])
    return [*aligned.columns(rows), followed.totals]


def steps_of(told: Told, followed: Followed, number: int) -> list[str]:
    """The records that a packet came to, and below them its end."""
    steps = [step for step in followed.steps if step.load.packet == number]
    if not steps:
        raise command.Refusal(f'there is no packet {number}; hosts handed in {len(told.handed_in)}', command.WRONG_WORDS)
    lines = aligned.columns([list(HEAD), *map(row_of, steps)])
    return lines + [f'packet {number}: {ends.end_of(told, told.handed_in[number])}']


def end_json(end: End) -> dict[str, Any]:
    where = 'node' if end.node else 'entry' if end.state == 'wire' else 'record'
    return {'state': end.state, where: end.node or end.number}


def step_json(step: Step) -> dict[str, Any]:
    made = {'record': step.record, 'ms': step.moment, 'node': step.node, 'fate': step.fate, 'packet': step.load.packet, 'back': step.load.is_back, 'what': step.word}
    return made | ({'mark': step.mark} if step.mark else {}) | ({'entry': step.entry} if step.entry is not None else {})


def packet_json(packet: Packet) -> dict[str, Any]:
    made = {'packet': packet.number, 'record': packet.record, 'node': packet.node, 'end': end_json(packet.end)}
    return made | ({'back': end_json(packet.back)} if packet.back else {})


def json_of(followed: Followed, number: int | None) -> list[dict[str, Any]]:
    """All lines, or those of a packet."""
    steps = [step_json(step) for step in followed.steps if number in (None, step.load.packet)]
    packets = [packet_json(packet) for packet in followed.packets if number in (None, packet.number)]
    if followed.totals == 'wire full':
        return [*steps, {'wire': 'full'}]
    words = followed.totals.split(' ')[1:]
    totals = {name: int(count) for name, count in zip(words[::2], words[1::2])}
    return [*steps, *packets, {'totals': totals}]


def main() -> int:
    options = options_of(sys.argv[1:])
    command.tell_fates()
    told = told_of(options)
    followed = told.followed
    if followed is None:
        raise command.Refusal(told.untold or '')
    if options.json:
        lines = [json.dumps(line) for line in json_of(followed, options.packet)]
    elif options.lines:
        lines = followed.lines()
    else:
        lines = packet_lines(told, followed) if options.packet is None else steps_of(told, followed, options.packet)
    command.show(lines)
    return 0


if __name__ == '__main__':
    command.run(main)
