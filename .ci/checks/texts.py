"""Tools over a scenario's text.

- lint: each refusal of tests/stored/refusals.txt is found at the text that was put there, with a caret below it. What is
  wanted there ends with the hint that HINTS has. Of each pair of faults of tests/faults.py both are named, the program's
  first; of each example none is. Each CHAIN of docs/SCENARIOS.md that is refused has its reason, and no other one; a scenario
  that says such a chain has a caret below it.
- docs/scenario.schema.json: its keys, types and events are those of docs/SCENARIOS.md. Where Python's `jsonschema` is
  installed, each example is valid by it, and each refusal that a schema can say is refused.
- check: every example passes; of EXPECTED a scenario passes with what it may expect, and fails with what it may not.
- generated: the totals of what it writes are those of `gen`. The example in tools/scenario.py is played.
"""
import os
import subprocess
import sys
import tempfile

import chains
import check
import command
import faults
import generated
import lint
import scenario
import toml_places
import wanted
from stored import TOP, example, linted, names, of_tests, path_of, refusals
from tally import skip

# What no schema can say: that names and addresses differ, that a name is a node's, and which of two numbers is the less.
UNSAID = ('secondary = "192.0.2.1"', 'external = "192.0.2.1"', 'name = "s1"', 'nat = "n9"', 'nat = "s1"', 'server = "n1"',
          'refresh = [30000, 22500]', 'at = "192.0.2.1:3545"', 'six = "2001:db8::9"', 'relay = "h1"', '"host s1 a 00"',
          '"host a b 00"', '"raw n1 00"', '"restart x"', '"forget n1 h1"')
# What the example of docs/SCENARIOS.md has, what it becomes, and how what is wanted there ends.
HINTS = (('kind = "port"', 'kind = "port_restricted"', 'did you mean port?'),
         ('kind = "port"', 'kind = "Port restricted cone"', 'did you mean port?'),
         ('kind = "port"', 'kind = "restricted cone"', 'did you mean restricted?'),
         ('kind = "port"', 'kind = "full cone"', 'did you mean cone?'),
         ('kind = "port"', 'kind = "symetric"', 'did you mean symmetric?'),
         ('kind = "port"', 'kind = "open"', 'the kinds of NAT of RFC 3489, section 5'),
         ('name = "s1"', 'name = "s1"\nevents = []', '; events belongs to the top: move it above the first [[..]]'),
         ('external = "198.51.100.1"', 'external = "0.1.2.3"', '192.168/16, 224/4 or 240/4; no other node has it'),
         ('at = "203.0.113.9:3545"', 'at = "0.1.2.3:3545"', '192.168/16, 224/4 or 240/4, and no other node has it'))
NO_HEX = ('host a h1 0', 'host a h1 0x00', 'host a h1 00 00', 'host a h1 hello', 'raw a 000', 'stranger 1.2.3.4:5 1.2.3.4:5 x')
HINTS += tuple(('"next"', f'"{event}"', 'without spaces or 0x, or - for no bytes') for event in NO_HEX)
GENERATED = ((7, 2000), (0, 300), (2 ** 63 - 1, 300), (1, 0))
# Changes of an example, each with what it then may expect, and with what it may not.
EXPECTED = (
    (('', ''), ('a qualified_cone is 2001:0:c000:201:8000:fbff:39cc:9bfe', 'total delivered 2 dropped 0', 'total kept 0 records 4'),
     ('a qualified_restricted', 'b qualified_cone', 'is qualified_cone', 'total handed 1', 'total records 2', 'total delivered 0',
      'total 4', 'total handed', 'wire full', '')),
    (('seed = 1', 'seed = "1"'), ('scenario seed: kind',), ('scenario kind', 'scenario seed', 'scenario', 'total')),
    (('  "next",\n]', '  "next", "advance 1000000000", "advance 1000000000",\n]'), ('wire full',), ('wire', 'total')))
TYPES = {'text': ('string', None), 'whole number': ('integer',), 'list of tables': ('array',), 'list of texts': ('array',),
         'list of two whole numbers': ('array',), 'truth value': ('boolean',)}


def check_lint(program):
    """The line of a refusal, the line of the file, a caret within what was put there, and what is wanted."""
    found = []
    for after, text, said in refusals():
        lines = linted(program, text)
        there = lines[1][2:] if len(lines) == 4 else ''
        caret = lines[2].find('^') - 2 if there else 0
        first = there.find(after.split('\n')[0])
        if len(lines) != 4 or not lines[0].endswith(said) or not 0 <= first <= caret <= first + len(after) or len(lines[3]) < 12:
            found.append(f'{after}: {lines}')
    for before, after, hint in HINTS:
        lines = linted(program, example().replace(before, after, 1))
        if before not in example() or not lines or not lines[-1].endswith(hint):
            found.append(f'{after}: {lines}, and not {hint}')
    return found


def check_chains(program):
    """What is said of a chain that is given as a word, and of one that a scenario says itself."""
    found, tree = [], command.read(path_of('tree_of_nats'))
    for chain, is_refused in wanted.page_chains():
        lines = linted(program, tree, chain)
        if (lines[:1], len(lines)) != (([': nested: chain'], 2) if is_refused else ([], 0)) or is_refused and len(lines[1]) < 20:
            found.append(f'{chain}: {lines}')
        lines = linted(program, chains.LINE.sub(f'# chain: {chain}', tree))
        if is_refused and (len(lines) != 4 or lines[2].strip() != '^' * max(1, len(chain)) or lines[2].index('^') != len('  # chain: ')):
            found.append(f'{chain}, as the scenario says: {lines}')
    for event in chains.LEFT_OUT:
        words = {'forget': 'forget n1 a', 'fault': 'fault 0'}.get(event, event)
        lines = linted(program, tree.replace('"next"', f'"{words}"', 1))
        if len(lines) != 4 or not lines[0].endswith(': nested events[1]') or lines[2].strip() != '^' * len(event):
            found.append(f'{event}: {lines}')
    return found


def check_schema(program):
    """The keys, the types and the events of the schema, and the page's."""
    found, page = [], wanted.page_keys()
    for table in [None] + list(lint.LISTS):
        keys = {key: value.get('type') for key, value in wanted.properties(table).items()}
        told = {key: kind for (where, key), kind in page.items() if where == table}
        if list(keys) != list(told) or any(keys[key] not in TYPES[told[key]] for key in keys):
            found.append(f'{table or "the top"}: the schema has {keys}, docs/SCENARIOS.md {told}')
    shapes = {word: shape for word, (shape, _) in wanted.events().items()}
    if shapes != wanted.page_events():
        found.append(f'events: the schema has {shapes}, docs/SCENARIOS.md {wanted.page_events()}')
    return found


def check_validity(program):
    try:
        import jsonschema
    except ImportError:
        skip('what the schemas say', 'no jsonschema for this Python')
        return []
    validator = jsonschema.Draft7Validator(wanted.schema())
    found = [f'{name}: {fault.message[:200]}' for name in names()
             for fault in validator.iter_errors(toml_places.read(command.read(path_of(name))).plain())]
    for after, text, said in refusals():
        try:
            is_valid = validator.is_valid(toml_places.read(text).plain())
        except toml_places.NotToml:
            continue
        if is_valid != (after in UNSAID):
            found.append(f'{after}: {"valid" if is_valid else "refused"}, and lab says {said}')
    return found


def check_all_faults(program):
    """Of two faults both are named, the program's first; but for those after which nothing can be told, and for an address that
    nobody else has where the server that had it is none."""
    pairs, found = of_tests('faults'), []
    for name in names():
        own = faults.Faults(toml_places.read(command.read(path_of(name))).plain()).lines
        found += [f'{name}: {own}'] if own else []
    ours = [fault for fault in pairs.FAULTS if fault[0] not in ('too long', 'no TOML')]
    alone = {fault[0]: command.play(program, pairs.text_of(fault))[1].strip() for fault in ours}
    for at, one in enumerate(ours):
        for two in ours[at + 1:]:
            if set(one[1]) & set(two[1]) or (one[0], two[0]) == ('server no list', 'address that a server has'):
                continue
            text = pairs.text_of(one, two)
            said = [line.partition(': ')[2] for line in linted(program, text) if line.startswith(':')]
            if said[0] != command.play(program, text)[1].strip() or set(said) != {alone[one[0]], alone[two[0]]}:
                found.append(f'{one[0]}, {two[0]}: {said}')
    return found


def check_expectations(program):
    found = [fault for name in names() for fault in check.check(program, path_of(name)) or []]
    for (before, after), right, wrong in EXPECTED:
        text = command.read(path_of('cone_client')).replace(before, after, 1)
        found += [f'{said}: fails' for said in right if not passes(program, text, said)]
        found += [f'{said}: passes' for said in wrong if passes(program, text, said)]
    return found


def passes(program, text, said):
    """Whether a scenario passes that expects this of its last event."""
    with tempfile.NamedTemporaryFile('w', suffix='.toml', encoding='utf-8') as file:
        file.write(text.replace(']\n', f'  # expect: {said}\n]\n', 1))
        file.flush()
        return check.check(program, file.name) == []


def check_written(program):
    found = []
    for seed, count in GENERATED:
        totals = command.play(program, generated.scenario(seed, count))[1].splitlines()[-1:]
        said = subprocess.run([program, 'gen', str(seed), str(count)], stdout=subprocess.PIPE, timeout=60).stdout.decode().splitlines()
        if totals != said:
            found.append(f'generated {seed} {count}: {totals}, and gen says {said}')
    code = '\n'.join(line[4:] for line in scenario.__doc__.splitlines() if line.startswith('    '))
    done = subprocess.run([sys.executable, '-B', '-c', code], cwd=os.path.join(TOP, 'tools'), stdout=subprocess.PIPE, timeout=60)
    status, written = command.play(program, done.stdout.decode())
    if status or 'b rule3 handed/41' not in written:
        found.append(f'the example of tools/scenario.py: status {status}, {written[-300:]}')
    return found
