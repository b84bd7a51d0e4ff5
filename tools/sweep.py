#!/usr/bin/env python3
"""Plays a scenario over all values of some of its keys, and over seeds, and writes a line of CSV for each play.

A KEY is NODE.KEY, as `n1.kind`, or a word in braces in the text, as `"advance {wait}"`. Values have commas between
them; N..M is every number from N to M, N..M..S every S-th; a pair is LOW:HIGH. Lines of the text between `# for i in 1..{count}` and
`# end` are there once for each number, which replaces `{i}`. `generated:COUNT` in place of TEMPLATE is the scenario of `generated`.

With `--lose` and `--delay` each `settle`, and each row of `next`, delivers what is on the wire by chance, drawn from the seed.

Each line has the values, the status, the totals, each client's end (its latest fate of its qualification), each packet's fate, and
of a scenario that was refused what was said. Where scenarios differ in their events, it has how many packets came to which end. Above
the head is a line with the version, the program, the template and the words. Lines come in order, whatever is played by how many
processes.

  sweep TEMPLATE --set n1.kind=cone,port --set n1.idle=1000..60000..1000 >RESULTS.csv
  sweep TEMPLATE --seeds 1..10000 --lose 0.1 --delay 10..80 --out RESULTS.csv
  sweep TEMPLATE --seeds 1..10000 --lose 0.1 --delay 10..80 --out RESULTS.csv --resume    goes on where that was broken off
  sweep TEMPLATE --seeds 1..10000 --shard 2/4 --out PART2.csv    the second of four parts, for a second machine
  sweep generated:200 --seeds 1..1000
  sweep TEMPLATE --set wait=0..60000..500 --plot wait,packet_8 >PICTURE.svg
  sweep RESULTS.csv --plot n1.idle,handed >PICTURE.svg           of what was played before
"""
import collections
import functools
import itertools
import os
import re
import sys

sys.dont_write_bytecode = True

import chains
import chance
import command
import ends
import plot
import results
import template
import toml_places
import workers
from followed import STATES
from report import HANDED_IN, NODE
from told import PLAYED, Told, phase_of, teller_of

TOTALS = ('records', 'entries', 'delivered', 'handed', 'kept', 'dropped')
SHARD = re.compile(r'([1-9]\d{0,5})/([1-9]\d{0,5})')
ASKING = ('cone', 'restricted', 'secondary')  # phases
ENDS = ('qualified_cone', 'qualified_restricted', 'symmetric', 'offline')
SAID = 'said'  # the last column: what was said of a scenario that was refused
SHAPES_MAX = 1000  # scenarios whose clients are looked at before


class Columns:
    """The clients of all scenarios, and the events that hand in a packet, none where scenarios differ in them."""

    def __init__(self, made, settings):
        loops = made.loops()
        shapes = [(key, values if key in (loops or ()) else values[:1]) for key, values in settings]
        tops = [toml_places.read(made.with_values(values)).plain() for values in itertools.islice(template.combinations(shapes), SHAPES_MAX)]
        self.clients = list(dict.fromkeys(client['name'] for top in tops for client in chains.tables(top, 'client')
                                          if NODE.fullmatch(str(client.get('name')))))
        events = tops[0].get('events') if isinstance(tops[0].get('events'), list) else []
        self.packets = [number for number, event in enumerate(events) if str(event).split(' ')[0] in HANDED_IN] if loops is None else None

    def names(self):
        packets = STATES if self.packets is None else [f'packet_{number}' for number in self.packets]
        return [*TOTALS, *self.clients, *packets, SAID]


def end_of(told, client):
    """Where a client's qualification is in the end: its verdict, or the phase in which it asks."""
    records = told.report.of_node(client)
    latest = next((record for record in reversed(records) if record.act == 'restart' or record.fate in ENDS), None)
    own = phase_of(told, client)
    if own is not None and own.phase in ASKING:
        return 'restarted' if records and records[-1].act == 'restart' else f'asks_{own.phase}' if records else 'silent'
    return latest.fate if latest and latest.act != 'restart' else own.phase if own else 'restarted' if latest else 'silent'


def ends_of(told, columns, numbers):
    """What became of the packets: of each its end in two words, or how many came to which end."""
    handed = {record.event: record for record in told.handed_in}
    if columns.packets is None:
        counts = collections.Counter(packet.end.state for packet in told.followed.packets) if told.followed else None
        return [counts[state] for state in STATES] if counts is not None else [ends.UNSAID] * len(STATES)
    records = [handed.get(numbers.get(packet)) for packet in columns.packets]
    return ['not played' if record is None else ends.end_of(told, record).words for record in records]


def played_once(program, path, text, by_chance):
    """The status, what is told of the play, and of each event of the text which one of those that were played it is."""
    if by_chance.is_any:
        play = chance.Play(program, text, by_chance)
        return play.status, Told(teller_of(program), play.text_now(), play.chain, play.written), play.numbers
    told = Told(teller_of(program), text, path=path)
    return told.status, told, {number: number for number in range(len(told.events))}


def row_of(program, made, columns, by_chance, chosen):
    """The line of one choice of values."""
    number, values = chosen
    try:
        status, told, numbers = played_once(program, made.path, made.with_values(values), by_chance)
        written = told.played[1]
    except command.Refusal as fault:
        if fault.status not in (command.FOUND, command.WRONG_WORDS):
            raise
        status, written = command.FOUND, str(fault)
    row = [number, *values.values(), status]
    if status not in (0, 8):
        return row + [''] * (len(columns.names()) - 1) + [written.strip()]
    counts = dict(re.findall(r'(\w+) (\d+)', told.report.totals))
    return row + [counts.get(name, '') for name in TOTALS] + [end_of(told, client) for client in columns.clients] + ends_of(told, columns, numbers) + ['']


def shard_of(text):
    """I and N of I/N."""
    found = SHARD.fullmatch(text)
    if not found or int(found[1]) > int(found[2]):
        raise command.argparse.ArgumentTypeError(f'no I/N with I from 1 to N: {text[:40]}')
    return int(found[1]), int(found[2])


def options_of(words):
    parser = command.with_program(command.words(__doc__))
    parser.add_argument('template', metavar='TEMPLATE', help='a scenario, maybe with words in braces; or with --plot what was written before')
    parser.add_argument('--set', metavar='KEY=A,B', action='append', default=[], help='a key and its values; as often as wanted')
    parser.add_argument('--seeds', metavar='N..M', help='every seed from N to M')
    parser.add_argument('--lose', metavar='P', type=chance.probability, default=0.0, help='an entry of the wire is lost with this probability, 0 to 1')
    parser.add_argument('--delay', metavar='A..B', type=chance.spread, default=(0, 0), help='an entry takes so many milliseconds')
    parser.add_argument('--shard', metavar='I/N', type=shard_of, default=(1, 1), help='only the I-th of N parts')
    parser.add_argument('--plot', metavar='X,Y', help='a picture of column Y over column X, in SVG, and no CSV')
    parser.add_argument('--out', metavar='NAME', help='write there, and not on standard output')
    parser.add_argument('--resume', action='store_true', help='with --out: keep the lines that are there, and go on behind them')
    parser.add_argument('--jobs', metavar='N', type=workers.count_of, default=workers.processors(), help='processes; else as many as processors')
    return parser.parse_args(words)


def settings_of(options):
    settings = [template.setting_of(word) for word in options.set]
    if options.seeds:
        settings.append(template.setting_of(f'seed={options.seeds}'))
    keys = [key for key, _ in settings]
    if len(set(keys)) < len(keys):
        raise command.Refusal('a key is set twice', command.WRONG_WORDS)
    return settings


class Sweep:
    """All that is to be played, and the head of its lines."""

    def __init__(self, options):
        self.options, settings = options, settings_of(options)
        keys = [key for key, _ in settings]
        self.made = template.Generated(options.template, keys) if template.GENERATED.fullmatch(options.template) else \
            template.Template(options.template, command.read(options.template), keys)
        self.chance = chance.Chance(options.lose, *options.delay)
        if self.chance.is_any and isinstance(self.made, template.Generated):
            raise command.Refusal('--lose and --delay want a scenario with `settle`, and a generated one has none', command.WRONG_WORDS)
        try:
            self.columns = Columns(self.made, settings)
        except toml_places.NotToml as fault:
            raise command.Refusal(f'{options.template}: with the first values no TOML: {fault}') from None
        self.program = command.built(options.program)
        whole = 1
        for _, values in settings:
            whole *= len(values)
        part, parts = options.shard
        self.first, self.last = whole * (part - 1) // parts, whole * part // parts
        self.all = enumerate(template.combinations(settings))
        self.head = [results.FIRST_COLUMN, *keys, 'status', *self.columns.names()]
        self.settings = settings

    def about(self):
        """The line above the head."""
        options = self.options
        words = [f'--set {word}' for word in options.set] + ([f'--seeds {options.seeds}'] if options.seeds else [])
        words += [f'--lose {options.lose}'] * (options.lose > 0) + [f'--delay {"..".join(map(str, options.delay))}'] * (options.delay != (0, 0))
        words += [f'--shard {"/".join(map(str, options.shard))}'] if options.shard != (1, 1) else []
        return results.about(self.program, self.made.path, self.made.text, words)

    def lines(self, done=0):
        """The lines behind so many that are done; meanwhile a bar says how far it is."""
        play = functools.partial(row_of, self.program, self.made, self.columns, self.chance)
        first, progress = self.first + done, workers.Progress()
        whole = self.last - first
        with workers.Pool(self.options.jobs if whole > 1 else 1) as pool:
            for number, row in enumerate(pool.each(play, itertools.islice(self.all, first, self.last), whole), 1):
                yield row
                progress.show(workers.bar(number, whole))
        progress.end()


def main():
    options = options_of(sys.argv[1:])
    if options.resume and not options.out:
        raise command.Refusal('--resume goes on with a file: --out NAME', command.WRONG_WORDS)
    found = None if template.GENERATED.fullmatch(options.template) else results.before(command.read(options.template))
    if found and not options.plot:
        raise command.Refusal(f'{options.template}: was written before; --plot X,Y draws it', command.WRONG_WORDS)
    if not options.plot:
        return results.write(Sweep(options), options.out, options.resume)
    made = None if found else Sweep(options)
    head, lines = found or (made.head, made.lines())
    picture = '\n'.join(plot.svg_of(head, list(lines), options.plot, os.path.basename(options.template))) + '\n'
    if options.out:
        command.write(options.out, picture)
    else:
        print(picture, end='')
    return 0


if __name__ == '__main__':
    command.run(main)
