#!/usr/bin/env python3
"""Why didn't this packet arrive? What came of each event of a report, as a tree of causes.

FILE is a scenario, which is played, or a report of `lab` or `nested`; `-` is standard input. Each entry of the wire is below the
record that made it, with where it ended and by which rule; `never delivered` is one that was lost. `follow` says where packets went,
and `state` what the nodes keep at the record at which one didn't come. A report by itself says neither: then there is only what its
lines say.

  trace FILE             the whole tree
  trace FILE --event N   what came of event N, and what its last fate means
  trace FILE --packets   each packet that a host handed in, in one line: arrived, waits, is held, lies on the wire, or lost, where and why

The line of a packet that didn't come ends with the word of `reach` for its two hosts before the event, if the program is built, the
scenario has few events and the word says why: docs/REACH.md has the words.
"""
import argparse
import sys

sys.dont_write_bytecode = True

import causes
import command
import ends
import fates
import matrix
from followed import HELD, LOST, WAITS, WIRE
from matrix import Before
from report import HANDED_IN, Entry, Record, is_report
from told import Told, alone, teller_of

HEX_MAX = 16  # characters of an event's bytes that are shown


def load(options: argparse.Namespace) -> Told:
    """What is told of a report, or of a scenario, which is played first."""
    text = command.read(options.file)
    if is_report(text):
        return alone(text)
    told = Told(teller_of(options.program), text, options.chain, path=options.file)
    assert told.events is not None  # where it is no scenario, that is said first
    told.must_play()
    return told


def short(event: str) -> str:
    """An event's text without most of its bytes."""
    return ' '.join(word if len(word) <= 40 else word[:HEX_MAX] + '..' for word in event.split(' '))


def title(record: Record, events: list[str]) -> str:
    said = f'"{short(events[record.event])}"' if record.event < len(events) and record.act != 'tick' else record.act
    return f'{record.moment:,} ms, event {record.event}, {said}: '


def outcome(record: Record) -> str:
    """Who decided, and what."""
    words = [record.node + ':' if record.node != '-' else '', command.red(record.fate, fates.is_drop(record.fate))]
    words += [f'is {record.address}'] if record.address else []
    words += [f'handed {record.handed} bytes'] if record.handed is not None else []
    words += [f'handed {length} bytes that were held' for length in record.late]
    words += [f'{record.gone} dropped'] if record.gone else []
    return ' '.join(word for word in words if word)


class Tree:
    """The lines below a record: each mark, below an entry its deliveries, and behind a drop its cause."""

    def __init__(self, told: Told) -> None:
        self.told, self.report, self.lines = told, told.report, list[str]()

    def said(self, record: Record) -> str:
        has_cause = fates.is_drop(record.fate) and not record.gone
        return outcome(record) + (': ' + causes.of_drop(self.told, record) if has_cause else '')

    def add(self, record: Record, depth: int) -> None:
        for mark in record.marks:
            if isinstance(mark, Entry):
                self.add_entry(mark, depth)
            else:
                self.lines.append('  ' * depth + f'{command.red("!" + mark.word)} {self.report.content(mark)} > {mark.target}: not sent')

    def add_entry(self, entry: Entry, depth: int) -> None:
        came = self.report.delivered(entry)
        lost = '' if came else ': never delivered'
        self.lines.append('  ' * depth + f'#{entry.number} {self.report.content(entry)}, {entry.way}, {entry.length} bytes{lost}')
        for record in came:
            self.lines.append('  ' * (depth + 1) + f'{record.moment:,} ms, {self.said(record)}')
            self.add(record, depth + 2)


def is_root(record: Record) -> bool:
    """Whether a record is the beginning of something, and not a delivery or an end of an `advance`."""
    return record.delivered is None and record.fate != 'done' or record.act in ('restart', 'forget') or record.fate == 'no_entry'


def tree_of(told: Told, record: Record) -> list[str]:
    tree = Tree(told)
    tree.lines.append(title(record, told.events) + tree.said(record))
    tree.add(record, 1)
    return tree.lines


def word_before(told: Told, record: Record, end: ends.End, before: Before | None) -> str | None:
    """The word of a packet's two hosts before its event, where it says why the packet didn't come, or None."""
    target = told.target(record)
    if before is None or target is None or end.state not in (LOST, WAITS, HELD, WIRE):
        return None
    return before.reason(record.event, record.node, target, end.state == LOST)


def end_text(told: Told, record: Record, before: Before | None = None, end: ends.End | None = None) -> str:
    """What became of a packet, and such a word."""
    end = end or ends.end_of(told, record)
    word = word_before(told, record, end, before)
    return f'{end}' + (f'; reach before it: {word}' if word else '')


def packet_line(told: Told, record: Record, before: Before | None = None, end: ends.End | None = None) -> str:
    said = short(told.events[record.event]) if record.event < len(told.events) else f'{record.act} {record.node}'
    return f'{record.moment:,} ms, event {record.event}, {said}: {end_text(told, record, before, end)}'


def explained(word: str) -> list[str]:
    """The line of docs/SCENARIOS.md on a fate."""
    fate = fates.FATES.get(word)
    if fate is None:
        return []
    lines = [f'{word}, of {fate.of}: {fate.means}']
    lines += [f'  likely cause: {fate.cause}'] if fate.cause else []
    return lines + ([f'  look next: {fate.look}'] if fate.look else [])


def event_lines(told: Told, number: int, before: Before | None = None) -> list[str]:
    records = [record for record in told.report.records if record.event == number]
    if not records:
        raise command.Refusal(f'there is no event {number} in this report', command.WRONG_WORDS)
    lines = [line for record in records for line in tree_of(told, record)]
    last = records[-1]
    if last.act not in HANDED_IN:
        return lines + explained(last.fate)
    end = ends.end_of(told, last)
    word = word_before(told, last, end, before)
    meaning = [f'{word}, of reach: {matrix.told().get(word)}'] if word else []
    return lines + ['', end_text(told, last, before)] + explained(end.record.fate) + meaning


def packet_lines(told: Told, before: Before | None) -> list[str]:
    """A line for each packet that a host handed in."""
    if not told.handed_in:
        return ['no host handed in a packet']
    lines = [packet_line(told, record, before) for record in told.handed_in]
    return lines + ([told.untold] if told.followed is None and told.untold else [])


def options_of(words: list[str]) -> argparse.Namespace:
    parser = command.over_report(__doc__)
    what = parser.add_mutually_exclusive_group()
    what.add_argument('--event', metavar='N', type=int, help='only this event')
    what.add_argument('--packets', action='store_true', help='a line for each packet that a host handed in')
    return parser.parse_args(words)


def main() -> int:
    options = options_of(sys.argv[1:])
    command.tell_fates()
    told = load(options)
    is_asked = told.text is not None and len(told.events) <= matrix.EVENTS_MAX
    before = matrix.Before(options.program, told.text, options.chain) if is_asked and told.text is not None else None
    if options.packets:
        lines = packet_lines(told, before)
    elif options.event is not None:
        lines = event_lines(told, options.event, before)
    else:
        told.kept  # by which entries are named that let go what waited
        lines = [line for record in told.report.records if is_root(record) for line in tree_of(told, record)]
    command.show(lines)
    return 0


if __name__ == '__main__':
    command.run(main)
