#!/usr/bin/env python3
"""Every order in which what follows the last event can be delivered, and what becomes of the packet in each.

The last event of FILE makes entries of the wire, their deliveries make others, and so on. A schedule delivers each of them
once, in some order; time stands still meanwhile. Entries from before that event stay as they are. It says how many schedules
there are, in how many the packet of that event arrives, and how many deliveries they have; and of each sequence of fates its
count and one schedule, as `deliver` events to paste.

  explore FILE             what follows the last event, such as `host a b 00`
  explore FILE --event N   what follows event N; later events are left out
  explore FILE --lose 1    also each schedule in which one entry, or none, is never delivered, and whose loss kills the packet
  explore FILE --repeat 1  also each in which one is delivered once more
"""
import collections
import dataclasses
import functools
import sys

sys.dont_write_bytecode = True

import chains
import command
import probes
import toml_places
import workers
from fates import is_drop
from followed import ARRIVED
from report import HANDED_IN
from told import Told, teller_of

MOST = 100_000  # schedules, where no other number is named
SPARE_MAX = 8  # losses, or repeats


@dataclasses.dataclass(frozen=True)
class Task:
    """What is explored: the scenario up to its last event, and how much may be lost and repeated."""
    program: str
    text: str
    chain: str
    lose: int
    repeat: int
    has_settle: bool  # whether `settle` delivers just what follows

    def play(self, numbers, is_whole):
        """What is told with these deliveries behind the last event, and where `is_whole` with all that is left behind them."""
        more = [f'deliver {number}' for number in numbers] + ['settle'] * is_whole
        told = Told(teller_of(self.program), probes.with_events(self.text, more) if more else self.text, self.chain)
        if told.status:
            raise command.Refusal(command.said(*told.played))
        return told


@dataclasses.dataclass
class Run:
    """A play whose deliveries behind the last event are one whole order."""
    told: Told
    event: int

    def __post_init__(self):
        self.report = self.told.report
        self.records = [record for record in self.report.records if record.event >= self.event]
        self.deliveries = [record for record in self.records if record.act.startswith('deliver:') and record.event > self.event]
        self.numbers = [record.delivered for record in self.deliveries]
        self.before = {record.delivered for record in self.records if record.event == self.event}  # what the event itself delivered

    def left(self, count):
        """The entries that follow and aren't delivered after so many deliveries, in their order."""
        last = self.deliveries[count - 1].index if count else None
        made = [entry.number for record in self.records for entry in record.entries
                if record.event == self.event or last is not None and record.index <= last]
        return sorted(set(made) - self.before - set(self.numbers[:count]))

    def names(self, numbers):
        """Each of these entries by what it is, who made it, and where it goes: its number is another one in another order."""
        entries = [self.report.entries[number] for number in numbers]
        return tuple(f'the {self.report.content(entry)} of {entry.maker.node}, {entry.way}' for entry in entries)

    def repeats(self, count):
        return count - len(set(self.numbers[:count]))


def whole_run(task, event, front):
    """The run that begins with these deliveries, and then delivers what is left, the least number first."""
    if task.has_settle:
        return Run(task.play(front, True), event)
    numbers = list(front)
    while True:
        run = Run(task.play(numbers, False), event)
        left = run.left(len(numbers))
        if not left:
            return run
        numbers += left


def arrival(run):
    """After how many deliveries the packet of the event has arrived, or None."""
    packet = run.records[0]
    if packet.act not in HANDED_IN:
        return None
    if run.told.followed is None:
        raise command.Refusal('this program says of no packet where it went: it answers neither `follow` nor `state`')
    end = run.told.followed.by_record[packet.index].end
    return sum(record.index <= end.number for record in run.deliveries) if end.state == ARRIVED else None


def schedules_of(task, event, front):
    """The schedules that this front leads to first, and the fronts that it leaves to others."""
    run = whole_run(task, event, front)
    numbers, fates, at = run.numbers, [record.fate for record in run.deliveries], arrival(run)
    found = [(tuple(fates[:count]), at is not None and at <= count, tuple(numbers[:count]), run.names(run.left(count)))
             for count in range(len(front), len(numbers) + 1) if len(run.left(count)) <= task.lose]
    return found, fronts_of(task, run, len(front))


def fronts_of(task, run, start):
    """The fronts that a run leaves to others: each goes with it for so many deliveries at least, and then another way."""
    fronts = []
    for count in range(start, len(run.numbers) + 1):
        before = run.numbers[:count]
        others = set(run.left(count)) | (set(before) if run.repeats(count) < task.repeat else set())
        fronts += [before + [other] for other in sorted(others - set(run.numbers[count:count + 1]))]
    return fronts


class Found:
    """All schedules: how many there are of each kind, and the first one of it; and of each entry that is lost in some how many there
    are of these, and in how many of them the packet arrives."""

    def __init__(self):
        self.counts, self.firsts, self.total, self.arrived, self.lengths = collections.Counter(), {}, 0, 0, set()
        self.without, self.lost = collections.defaultdict(lambda: [0, 0]), {}

    def add(self, fates, has_arrived, numbers, lost):
        kind = fates, has_arrived
        self.counts[kind] += 1
        self.total += 1
        self.arrived += has_arrived
        self.lengths.add(len(numbers))
        first = self.firsts.get(kind)
        if first is None or numbers < first:
            self.firsts[kind], self.lost[kind] = numbers, lost
        for name in set(lost):
            self.without[name][0] += 1
            self.without[name][1] += has_arrived


def explored(task, event, most, pool, progress):
    """All schedules, or the first ones, and whether those are all."""
    found, fronts = Found(), [[]]
    step = functools.partial(schedules_of, task, event)
    while fronts:
        fronts, now = [], fronts
        for made, others in pool.each(step, now, len(now)):
            for schedule in made:
                if found.total == most:
                    return found, False
                found.add(*schedule)
            fronts += others
            progress.show(f'{found.total:,} schedules, {len(fronts):,} fronts for the next round')
    return found, True


def cut(path, text, number):
    """The text up to its last event, or up to event `number`, and the number of that event."""
    events = toml_places.scenario_node(path, text).value['events']
    if not events.value:
        raise command.Refusal(f'{path}: there is no event', command.WRONG_WORDS)
    number = len(events.value) - 1 if number is None else number
    if number >= len(events.value):
        raise command.Refusal(f'{path}: there is no event {number}; the last one is {len(events.value) - 1}', command.WRONG_WORDS)
    return probes.with_first(text, number + 1), number


def task_of(options):
    """What is to be explored, the number of the event, and the play in which nothing of it is delivered yet."""
    text, event = cut(options.file, command.read(options.file), options.event)
    chain = chains.chain_of(text) if options.chain is None else options.chain
    try:
        task, run = begun(Task(command.built(options.program), text, chain, options.lose, options.repeat, False), event)
    except command.Refusal as fault:
        if fault.status != command.FOUND:  # nothing was played: it isn't the scenario's fault
            raise
        raise command.Refusal(f'{options.file}: {fault}') from None
    events = toml_places.scenario_events(options.file, text)
    if not run.left(0):
        raise command.Refusal(f'{options.file}: nothing is left to deliver behind event {event}, {events[event][:40]}; --event N takes another one')
    return task, event, run


def begun(task, event):
    """The task, by `settle` where that delivers just what follows, and the run in which nothing of it is delivered yet."""
    run = Run(task.play([], False), event)
    undelivered = {entry.number for entry in run.report.entries.values() if not run.report.delivered(entry)}
    return dataclasses.replace(task, has_settle=task.chain is None and undelivered == set(run.left(0))), run


def lines_of(found, is_all, run):
    """What is said of all schedules."""
    least, most = min(found.lengths, default=0), max(found.lengths, default=0)
    lengths = f'{least}' if least == most else f'{least} to {most}'
    schedules, deliveries = 'schedule' + 's' * (found.total != 1), 'delivery' if most == 1 else 'deliveries'
    lines = [f'{found.total:,} {schedules} of {lengths} {deliveries}' + ('' if is_all else ', and there are more')]
    is_packet = run.records[0].act in HANDED_IN
    if is_packet:
        lines.append(f'the packet arrives in {found.arrived:,} of {found.total:,}')
        lines += [f'  without {name}: in {arrived:,} of {count:,}' + ('; its loss kills the packet' if not arrived and is_all else '')
                  for name, (count, arrived) in sorted(found.without.items(), key=lambda one: (one[1][1] / one[1][0], one[0]))]
    lines.append('')
    width = len(f'{max(found.counts.values(), default=0):,}')
    for (fates, has_arrived), count in sorted(found.counts.items(), key=lambda kind: (-kind[1], kind[0])):
        said = ('arrives  ' if has_arrived else 'never    ') if is_packet else ''
        words = ' '.join(command.red(fate, is_drop(fate)) for fate in fates)
        lines.append(f'{count:>{width},}  {said}{words or "nothing is delivered"}')
        lines += [f'{"":{width}}  without {name}' for name in found.lost[fates, has_arrived]]
        numbers = found.firsts[fates, has_arrived]
        lines += [f'{"":{width}}  ' + ' '.join(f'"deliver {number}",' for number in numbers)] if numbers else []
    return lines


def up_to(most):
    """A reader of a number that is at most so large."""
    def read(text):
        number = command.number(text)
        if number > most:
            raise command.argparse.ArgumentTypeError(f'{number} is above {most}')
        return number
    return read


def options_of(words):
    parser = command.with_chain(command.with_program(command.words(__doc__)))
    parser.add_argument('file', metavar='FILE', help='a scenario')
    parser.add_argument('--event', metavar='N', type=command.number, help='the event whose packet is followed; else the last one')
    parser.add_argument('--lose', metavar='N', type=up_to(SPARE_MAX), default=0, help='up to so many entries are never delivered')
    parser.add_argument('--repeat', metavar='N', type=up_to(SPARE_MAX), default=0, help='up to so many deliveries come once more')
    parser.add_argument('--most', metavar='N', type=command.number, default=MOST, help=f'stop after so many schedules; else {MOST:,}')
    parser.add_argument('--jobs', metavar='N', type=workers.count_of, default=workers.processors(), help='processes; else as many as processors')
    return parser.parse_args(words)


def main():
    options = options_of(sys.argv[1:])
    command.tell_fates()
    task, event, run = task_of(options)
    progress = workers.Progress()
    with workers.Pool(options.jobs) as pool:
        found, is_all = explored(task, event, options.most, pool, progress)
    progress.end()
    command.show(lines_of(found, is_all, run))
    return 0 if is_all else command.FOUND


if __name__ == '__main__':
    command.run(main)
