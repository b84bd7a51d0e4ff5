#!/usr/bin/env python3
"""What each node keeps at a record: a NAT's ports and whom they let in, a client's phase and address, what is known of peers.

FILE is a scenario; `-` is standard input. Moments are in milliseconds; what has an end stands there until that.

  state FILE                what is kept in the end
  state FILE --at N         what is kept after record N, at its moment
  state FILE --node n1,a    only of these nodes
  state FILE --json         an object a line; docs/state.schema.json has the keys

It is read from the lines of the program's own `state FILE CHAIN each`.
"""
import argparse
import json
import sys
from collections.abc import Iterator
from typing import Any

sys.dont_write_bytecode = True

import aligned
import causes
import command
from kept import BEFORE, Client, Kept, Lets, Peer, Port, Relay, What
from told import Told, teller_of

Rows = list[list[str]]


def options_of(words: list[str]) -> argparse.Namespace:
    parser = command.with_chain(command.with_program(command.words(__doc__)))
    parser.add_argument('file', metavar='FILE', help='a scenario')
    parser.add_argument('--at', metavar='N', type=command.number, help='after this record; else in the end')
    parser.add_argument('--node', metavar='NAMES', default='', help='only of these nodes, with commas between them')
    parser.add_argument('--json', action='store_true', help='an object a line')
    return parser.parse_args(words)


class Moment:
    """What is kept after a record."""

    def __init__(self, told: Told, kept: Kept, record: int) -> None:
        self.told, self.kept, self.record = told, kept, record
        self.count = kept.after(record)
        self.now = told.report.records[record].moment if record >= 0 else 0

    def nodes(self, names: list[str]) -> list[str]:
        unknown = [name for name in names if name not in self.told.known.kinds]
        if unknown:
            raise command.Refusal(f'there is no node {unknown[0]}; here is {", ".join(self.told.known.kinds)}', command.WRONG_WORDS)
        return [node for node in self.kept.nodes if not names or node in names]

    def whats(self, node: str) -> list[What]:
        return list(self.kept.whats(node, self.count, self.now))

    def lines(self, node: str) -> list[str]:
        """What a node keeps, as tables."""
        whats, kind = self.whats(node), self.told.known.kinds.get(node)
        if kind == 'nat':
            return [f'{node}, NAT:', *indented(self.ports(node, whats) or [['no port']])]
        own = next((what for what in whats if isinstance(what, (Client, Relay))), None)
        peers = [what for what in whats if isinstance(what, Peer)]
        head = f'{node}, {kind}: {self.own(own)}'
        return [head, *indented([PEERS, *(self.peer(peer) for peer in peers)])] if peers else [head + ', knows no peer']

    def ports(self, nat: str, whats: list[What]) -> Rows:
        rows = []
        for port in (what for what in whats if isinstance(what, Port)):
            lets = [what for what in whats if isinstance(what, Lets) and what.number == port.number]
            whom = f'toward {port.toward} alone' if port.toward else causes.whom(lets) if lets else ANYONE.get(str(self.told.known.tables[nat].get('kind')), 'nobody')
            rows.append([f'port {port.number}', causes.whose(self.told, nat, port.inside), port.inside, f'until {port.until:,}', f'lets in {whom}' if not port.toward else whom])
        return rows

    @staticmethod
    def own(own: What | None) -> str:
        if isinstance(own, Client):
            return f'{own.phase}, {own.address or "no address"}, {due(own.due)}'
        return due(own.due) if isinstance(own, Relay) else 'nothing is told'

    def peer(self, peer: Peer) -> list[str]:
        fresh = 'fresh' if peer.is_fresh(self.now) else 'not fresh' if peer.at else '-'
        name = self.told.name_of(peer.address, self.count)
        return [name, peer.address if name != peer.address else '', peer.at or '-', fresh, moment(peer.heard), moment(peer.touched), ' '.join(map(moment, peer.tries)) or '-',
                str(peer.waits), '-' if peer.held is None else str(peer.held)]

    def json(self, names: list[str]) -> Iterator[dict[str, Any]]:
        for node in self.nodes(names):
            for what in self.whats(node):
                yield {'record': None if self.record < 0 else self.record, 'ms': self.now, 'node': node} | what_json(what)


PEERS = ['peer', 'address', 'trusted at', 'fresh', 'heard', 'touched', 'tries', 'waits', 'held']
ANYONE = {'cone': 'anyone'}


def moment(number: int | None) -> str:
    return '-' if number is None else f'{number:,}'


def due(number: int | None) -> str:
    return 'nothing due' if number is None else f'due at {number:,}'


def indented(rows: Rows) -> list[str]:
    return [f'  {line}' for line in aligned.columns(rows)]


def what_json(what: What) -> dict[str, Any]:
    """What `state` says of a thing, by its kind."""
    if isinstance(what, Port):
        return {'port': what.number, 'inside': what.inside, 'until': what.until} | ({'toward': what.toward} if what.toward else {})
    if isinstance(what, Lets):
        return {'port': what.number, 'lets': what.source, 'until': what.until}
    if isinstance(what, Client):
        return {'phase': what.phase, 'address': what.address, 'due': what.due}
    if isinstance(what, Relay):
        return {'due': what.due}
    assert isinstance(what, Peer)
    made = {'peer': what.address, 'at': what.at, 'heard': what.heard, 'touched': what.touched, 'tries': list(what.tries), 'waits': what.waits}
    return made | ({} if what.held is None else {'nonce': what.nonce, 'held': what.held})


def main() -> int:
    options = options_of(sys.argv[1:])
    told = Told(teller_of(options.program), command.read(options.file), options.chain, path=options.file)
    assert told.events is not None  # where it is no scenario, that is said first
    told.must_play()
    if told.kept is None:
        raise command.Refusal(told.untold or '')
    last = len(told.report.records) - 1
    if options.at is not None and options.at > last:
        raise command.Refusal(f'there is no record {options.at}; the last one is {last}', command.WRONG_WORDS)
    at = Moment(told, told.kept, options.at if options.at is not None else last if last >= 0 else BEFORE)
    names = [name for name in options.node.split(',') if name]
    if options.json:
        command.show(json.dumps(line) for line in at.json(names))
    else:
        about = f'after record {at.record}, at {at.now:,} ms' if at.record >= 0 else 'before any record'
        command.show([about, *(line for node in at.nodes(names) for line in at.lines(node))])
    return 0


if __name__ == '__main__':
    command.run(main)
