#!/usr/bin/env python3
"""A report as JSON: a line for each record, its marks as objects, and last a line of the totals.

FILE is a report of `lab` or `nested`, or a scenario, which is played first; `-` is standard input. What a record doesn't
have has no key. docs/report.schema.json has the keys of a line. These stay, with what they mean; more fates, acts and words of
`lost` may come, and a new key comes with a new schema.

  json FILE | jq -r 'select(.drop) | "\\(.ms) \\(.node) \\(.fate)"'    when, where and by which rule something was dropped
  json FILE | jq -c 'select(.address) | [.ms, .node, .address]'      who got which address
"""
import json
import sys
from typing import Any

sys.dont_write_bytecode = True

import command
import fates
from report import Entry, Mark, Record, Report
from trace import load


def mark_of(mark: Mark) -> dict[str, Any]:
    """An entry of the wire, or what wasn't sent."""
    if not isinstance(mark, Entry):
        return {'lost': mark.word, 'to': mark.target, 'bytes': mark.length}
    if not mark.is_six:
        return {'entry': mark.number, 'from': mark.source, 'to': mark.target, 'bytes': mark.length}
    made = {'entry': mark.number, 'ipv6': True, 'bytes': mark.length}
    return made | {'relay': mark.relay} if mark.relay else made


def line_of(record: Record) -> dict[str, Any]:
    act, _, number = record.act.partition(':')
    line = {'record': record.index, 'ms': record.moment, 'event': record.event, 'act': act}
    if number:
        line['of'] = int(number)
    if record.node != '-':
        line['node'] = record.node
    line |= {'fate': record.fate, 'drop': fates.is_drop(record.fate)}
    had = {'address': record.address, 'handed': record.handed, 'late': record.late, 'gone': record.gone,
           'marks': [mark_of(mark) for mark in record.marks]}
    return line | {key: value for key, value in had.items() if value or value == 0 and key == 'handed'}


def totals_of(text: str) -> dict[str, Any]:
    """The last line: numbers by their names, or that the wire is full."""
    if text == 'wire full':
        return {'wire': 'full'}
    words = text.split(' ')[1:]
    return {'totals': {name: int(number) for name, number in zip(words[::2], words[1::2])}}


def lines_of(report: Report) -> list[dict[str, Any]]:
    return [line_of(record) for record in report.records] + [totals_of(report.totals)]


def main() -> int:
    told = load(command.over_report(__doc__).parse_args())
    for line in lines_of(told.report):
        print(json.dumps(line))
    return 0


if __name__ == '__main__':
    command.run(main)
