#!/usr/bin/env python3
"""Where a refused scenario is wrong: the line of the file, what may be there, and the nearest known word.

Each FILE is played. If `lab` refuses it, this says the line and the column of each fault that can be told apart, that of `lab`
first, with the line itself, a caret below it and what may be there. It does the same for the first fault if `nested` refuses the
chain of NATs, a node or an event. It ends with status 0 if all are played, and with 1 if one is refused.

  lint FILE..
  lint FILE --chain=CHAIN
"""
import re
import sys

sys.dont_write_bytecode = True

import chains
import command
import faults
import toml_places
import wanted
from toml_places import Node

LISTS = ('server', 'nat', 'client', 'relay', 'native')
NEEDS = {'nat': 'nat', 'server': 'server', 'relay': 'relay'}  # a key that names a node, and the list of that node
KINDS = {'server': 'server', 'nat': 'NAT', 'client': 'client', 'relay': 'relay', 'native': 'native host'}
NAMES_MAX = 8  # that are listed
LINE_MAX = 400  # characters of a line that are shown
WHOLE = ('scenario: too long', 'scenario: not toml')  # after which nothing more can be told
ADDRESSES = ('primary', 'secondary', 'external', 'at', 'inside', 'six')
AT_EVENT = re.compile(r'scenario events\[(\d+)\] at (\d+): event')
AT_TABLE = re.compile(r'scenario (\w+)\[(\d+)\](?:\.(.*))?: (\w+)')
AT_TOP = re.compile(r'scenario (.*): (\w+)')
AT_LEFT_OUT = re.compile(r'nested events\[(\d+)\]')


class Finding:
    """A place in the text, how many characters are meant, and what is said of them; no place where it is about a word."""

    def __init__(self, place, length, text):
        self.place, self.length, self.text = place, max(1, length), text


def names_of(top):
    """Each node's name, its list and its place, in the order in which they are numbered."""
    for table in LISTS:
        for node in tables_of(top, table):
            name = node.value.get('name')
            if name is not None and isinstance(name.value, str):
                yield name.value, table, name.start


def tables_of(top, table):
    node = top.value.get(table)
    found = node.value if node is not None and isinstance(node.value, list) else []
    return [item for item in found if isinstance(item.value, dict)]


def address_of(key, value):
    return value.rpartition(':')[0] if key == 'at' else value


def twin(top, key, value, place):
    """Another place that has this address."""
    for table in LISTS:
        for node in tables_of(top, table):
            for other in ADDRESSES:
                item = node.value.get(other)
                if item is not None and item.start != place and isinstance(item.value, str) \
                        and address_of(other, item.value) == address_of(key, value) and (key == 'inside') == (other == 'inside'):
                    return f'; {table} {node.value["name"].plain() if "name" in node.value else ""} has it as {other}'
    return ''


def of_key(top, table, node, key, word):
    """The finding for a key of a table; the table of the top is None."""
    known = wanted.properties(table)
    where = f'[[{table}]]' if table else 'the top'
    if word == 'key' and key in known:
        return Finding(node.start, node.end - node.start if table else 1, f'{where} has no {key}, and wants one, {wanted.rule(table, key)}')
    if word == 'key':
        place = next((place for name, place in node.keys.items() if faults.shown(name) == key), node.start)
        return Finding(place, len(key), f'{where} has no key {key}{wanted.nearest(key, known)}; it has {", ".join(known)}{of_the_top(key)}')
    item = node.value[key]
    return Finding(item.start, item.end - item.start, wanted.rule(table, key) + of_value(top, table, key, item, word))


def of_the_top(key):
    """What is said of a key of the top that stands in a table."""
    is_there = key in wanted.properties() and key not in LISTS
    return f'; {key} belongs to the top: move it above the first [[..]]' if is_there else ''


def of_value(top, table, key, item, word):
    """What is known beside the rule: who has the name or the address, or what was meant."""
    value = item.value
    if not isinstance(value, str):
        return ''
    if word == 'range':
        known = wanted.properties(table)[key].get('enum', []) if table else []
        return wanted.nearest_value(value, known) or twin(top, key, value, item.start)
    nodes = list(names_of(top))
    if word == 'name' and key == 'name':
        return ''.join(f'; {kind} {name} has it' for name, kind, place in nodes if name == value and place < item.start)
    if word == 'name':
        others = [f'; {value} is a {KINDS[kind]}' for name, kind, _ in nodes if name == value]
        known = [name for name, kind, _ in nodes if kind == NEEDS[key]]
        return ''.join(others[:1]) + (f'; here is {", ".join(known[:NAMES_MAX])}' if known else '; here is none')
    return ''


def of_event(top, number, at):
    item = top.value['events'].value[number]
    text = item.value.encode('utf-8')
    word_at = text[:at].decode('utf-8', 'replace').count(' ')
    is_missing = at == len(text) and bool(text) and not text.endswith(b' ')
    words, word = item.value.split(' '), word_at + is_missing
    here = words[word] if word < len(words) else ''
    place = item.start + 1 + len(text[:at].decode('utf-8', 'replace'))
    return Finding(place, len(here), of_word(top, words, word, here))


def of_word(top, words, number, here):
    """What is wanted at a word of an event."""
    known = wanted.events()
    if number == 0:
        return f'an event begins with one of {", ".join(known)}{wanted.nearest(here, known)}'
    shape, told = known[words[0]]
    if number >= len(shape):
        return f'nothing more: the event is {" ".join(shape)}; {told}'
    if here == '' and number < len(words):
        return f'{shape[number]}, and one space before it: the event is {" ".join(shape)}; {told}'
    if words[0] == 'forget' and number == 2 and here in [name for name, kind, _ in names_of(top) if kind == 'client']:
        return f'a client behind {words[1]}'
    near = wanted.nearest(here, [name for name, _, _ in names_of(top)]) if shape[number] in ('A', 'B', 'NAT', 'CLIENT') else ''
    return f'{shape[number]}: the event is {" ".join(shape)}; {told}{near}'


def finding(text, said, top=None):
    """A fault of a refused text, from the line that is said of it; `top` is what the text says, where that was read before."""
    if said == 'scenario: too long':
        return Finding(4_194_304, 1, 'at most 4,194,304 bytes')
    if said == 'scenario: not toml':
        return of_toml(text)
    top = top or toml_places.read(text)
    event, table, of_top = AT_EVENT.fullmatch(said), AT_TABLE.fullmatch(said), AT_TOP.fullmatch(said)
    if of_top and of_top[2] == 'key' and of_top[1] in map(faults.shown, set(top.keys) - set(wanted.properties())):
        return of_top_key(top, of_top[1], of_top[2])  # whatever such a key looks like
    if event:
        return of_event(top, int(event[1]), int(event[2]))
    if table:
        node = top.value[table[1]].value[int(table[2])]
        if table[3] is None:
            return Finding(node.start, node.end - node.start, f'a table: [[{table[1]}]], and its keys below it')
        return of_key(top, table[1], node, table[3], table[4])
    if of_top:
        return of_top_key(top, of_top[1], of_top[2])
    raise command.Refusal(f'this is no refusal: {said}')


def of_chain(text, said, chain):
    """The finding for a scenario that `nested` doesn't play with this chain, from the line that it said."""
    top, left_out = toml_places.read(text), AT_LEFT_OUT.fullmatch(said)
    if left_out:
        item = top.value['events'].value[int(left_out[1])]
        return Finding(item.start + 1, len(item.value.partition(' ')[0]),
                       f'with a chain no {", no ".join(chains.LEFT_OUT)}; `next`, again and again, delivers as settle does')
    if said == 'nested: nodes':
        place = min(tables_of(top, table)[0].start for table in ('relay', 'native') if tables_of(top, table))
        return Finding(place, 1, 'with a chain servers, NATs and clients alone')
    if said != 'nested: chain':
        raise command.Refusal(f'this is no refusal: {said}')
    line = chains.found_in(text)
    is_said = line is not None and chains.chain_of(text) == chain
    return Finding(line.start(1) if is_said else None, len(chain), chains.fault_of(top.plain(), chain))


def found_of(status, text, said, chain):
    """The finding for a scenario that isn't played, from its status and the line that was said."""
    return finding(text, said) if status == 3 else of_chain(text, said, chain)


def findings(status, text, said, chain):
    """Each fault that is found, as the line that is said of it and the finding, the program's own first."""
    try:
        top = None if said in WHOLE else toml_places.read(text)
    except toml_places.NotToml as fault:  # larger or deeper than is read here
        return [(said, Finding(fault.place, 1, str(fault)))]
    first = found_of(status, text, said, chain)
    if status != 3 or top is None:
        return [(said, first)]
    return [(said, first)] + [(line, finding(text, line, top)) for line in faults.lines_of(top.plain(), said)[1:]]


def of_top_key(top, key, word):
    if word != 'key' and key in LISTS and isinstance(top.value[key].value, dict):
        return Finding(top.value[key].start, len(key) + 2, f'two brackets, [[{key}]]: a list of tables')
    place = Node(top.value, 0, 1, top.keys)
    return of_key(top, None, place, key, word)


def of_toml(text):
    """What our own reader says of a text that is no TOML, with what Python's says, where it has one. Ours comes first: it knows bounds,
    and what is above them Python's isn't asked of."""
    try:
        outside = outside_64_bits(toml_places.read(text))
    except toml_places.NotToml as fault:
        told = '' if fault.is_bound else by_python(text)
        return Finding(fault.place, 1, str(fault) + (f' (Python: {told})' if told else ''))
    told = by_python(text)
    if outside is not None:
        return Finding(outside.start, outside.end - outside.start, 'a whole number of 64 bits, from -2^63 to 2^63 - 1')
    line = re.search(r'line (\d+), column (\d+)', told)
    starts = [0] + [match.end() for match in re.finditer('\n', text)]
    return Finding(starts[int(line[1]) - 1] + int(line[2]) - 1 if line else 0, 1, told or 'TOML 1.1')


def outside_64_bits(node):
    """The first whole number that is outside 64 bits, or None."""
    left = [node]
    while left:
        node = left.pop()
        if isinstance(node.value, int) and not -2 ** 63 <= node.value < 2 ** 63:
            return node
        items = node.value.values() if isinstance(node.value, dict) else node.value if isinstance(node.value, list) else []
        left += reversed(list(items))
    return None


def by_python(text):
    """What Python's own reader says; none where it has none, or can't cope."""
    try:
        import tomllib
        tomllib.loads(text)
    except (ImportError, RecursionError):  # before Python 3.11; deeper than it goes
        return ''
    except ValueError as fault:  # of a number with very many digits too
        return str(fault)
    return ''


def lint(program, path, chain=None, once=False):
    """The lines on a file, none where it is played."""
    text = command.read(path)
    chain = chains.chain_of(text) if chain is None else chain
    status, written = command.play_file(program, path, chain, once)
    if status not in (3, 12):
        return []
    said = written.strip()
    return [line for said, found in findings(status, text, said, chain) for line in shown_as(path, text, said, found)]


def shown_as(path, text, said, found):
    """The lines of one finding: where, the line of the file, a caret, and what is wanted."""
    if found.place is None:
        return [f'{path}: {said}', f'  wanted: {found.text}']
    line, column, there = toml_places.place_of(text, found.place)
    start = max(0, column - 1 - LINE_MAX // 2) if len(there) > LINE_MAX else 0
    there, at = there[start:start + LINE_MAX], column - 1 - start
    before, meant = command.shown(there[:at]), command.shown(there[at:at + found.length])
    return [f'{path}:{line}:{column}: {said}', f'  {command.shown(there)}', f'  {" " * len(before)}{"^" * max(1, len(meant))}', f'  wanted: {found.text}']


def main():
    parser = command.with_chain(command.with_program(command.words(__doc__)))
    parser.add_argument('files', metavar='FILE', nargs='+')
    options = parser.parse_args()
    is_one = len(options.files) == 1
    lines = [line for path in options.files for line in lint(options.program, path, options.chain, is_one)]
    command.show(lines)
    return command.FOUND if lines else 0


if __name__ == '__main__':
    command.run(main)
