"""A scenario in which values are put in place of others: of a node's key, of the seed, or of a word in braces.

Lines between `# for i in 1..{count}` and `# end` stand there once for each number, with that in place of `{i}`: so a word in braces
may say how many nodes there are.
"""
import itertools
import re

import command
import generated
import toml_places
import wanted

RANGE = re.compile(r'(\d+)\.\.(\d+)(?:\.\.(\d+))?')
NODE_KEY = re.compile(r'([a-z][a-z0-9_]{0,15})\.([a-z_]+)')
PLACEHOLDER = re.compile(r'[A-Za-z_][A-Za-z0-9_]{0,30}')
PLAIN = re.compile(r'[A-Za-z0-9_.:]+')
LISTS = ('server', 'nat', 'client', 'relay', 'native')
VALUES_MAX = 1_000_000
LOOP = re.compile(r'[ \t]*#[ \t]*for[ \t]+([A-Za-z_]\w{0,30})[ \t]+in[ \t]+(\S{1,40})\.\.(\S{1,40})[ \t\r]*')
LOOP_END = re.compile(r'[ \t]*#[ \t]*end[ \t\r]*')
GENERATED = re.compile(r'generated:(\d{1,5})')
LINES_MAX = 100_000  # that loops make
WORD = 'word'  # the type of what stands in braces


def values_of(text):
    """The values of a list with commas between them; N..M stands for all numbers from N to M, and N..M..S for each S-th."""
    found = []
    for word in text.split(','):
        numbers = RANGE.fullmatch(word)
        if numbers and (int(numbers[3] or 1) == 0 or int(numbers[2]) < int(numbers[1])):
            raise command.Refusal(f'{word}: an empty range', command.WRONG_WORDS)
        if numbers:
            spread = range(int(numbers[1]), int(numbers[2]) + 1, int(numbers[3] or 1))
            if len(spread) > VALUES_MAX:
                raise command.Refusal(f'{word}: more than {VALUES_MAX:,} values', command.WRONG_WORDS)
            found += map(str, spread)
        elif PLAIN.fullmatch(word):
            found.append(word)
        else:
            raise command.Refusal(f'{word!r}: a value has letters, digits, and . _ : alone', command.WRONG_WORDS)
    return found


def setting_of(text):
    """A key and its values, of KEY=A,B."""
    key, sign, values = text.partition('=')
    if not sign or not values or not (NODE_KEY.fullmatch(key) or PLACEHOLDER.fullmatch(key)):
        raise command.Refusal(f'{text[:60]}: no KEY=A,B; a KEY is NODE.KEY, as n1.kind, or a word that stands in braces in the text', command.WRONG_WORDS)
    return key, values_of(values)


class Template:
    """A text with holes: pieces, and between them the keys whose values are put in, each as it is written there."""

    def __init__(self, path, text, keys):
        self.path, self.text = path, text
        self.holes = sorted(hole for key in keys for hole in self.holes_of(key))

    def holes_of(self, key):
        """Where a key's value goes: from, to, the key, what stands before it, and its type."""
        if key == 'seed':
            return [self.top_hole()]
        if '.' not in key:
            marks = [(mark.start(), mark.end(), key, '', WORD) for mark in re.finditer(re.escape('{' + key + '}'), self.text)]
            if not marks:
                raise command.Refusal(f'{self.path}: {{{key}}} stands nowhere', command.WRONG_WORDS)
            return marks
        return [self.node_hole(key, *key.split('.'))]

    def top(self):
        try:
            return toml_places.read(self.text)
        except toml_places.NotToml as fault:
            line, column, _ = toml_places.place_of(self.text, fault.place)
            raise command.Refusal(f'{self.path}:{line}:{column}: {fault}') from None

    def top_hole(self):
        seed = self.top().value.get('seed')
        if seed is None:
            raise command.Refusal(f'{self.path}: has no seed', command.WRONG_WORDS)
        return seed.start, seed.end, 'seed', '', 'whole number'

    def node_hole(self, whole, name, key):
        for kind in LISTS:
            for node in self.top().value.get(kind, toml_places.Node([], 0, 0)).value:
                if isinstance(node.value, dict) and 'name' in node.value and node.value['name'].value == name:
                    return self.key_hole(whole, kind, node, key)
        raise command.Refusal(f'{self.path}: there is no node {name}', command.WRONG_WORDS)

    def key_hole(self, whole, kind, node, key):
        form = wanted.page_keys().get((kind, key))
        if form is None:
            raise command.Refusal(f'a {kind} has no key {key}{wanted.nearest(key, wanted.properties(kind))}', command.WRONG_WORDS)
        if key in node.value:
            return node.value[key].start, node.value[key].end, whole, '', form
        end = node.value['name'].end
        return end, end, whole, ('\n' if node.is_header else ', ') + f'{key} = ', form

    def with_values(self, values):
        """The text with a value for each key."""
        made, at = [], 0
        for start, end, key, front, form in self.holes:
            made += [self.text[at:start], front, written(values[key], form)]
            at = end
        return repeated(self.path, ''.join(made) + self.text[at:])

    def loops(self):
        """The words in braces that say how often something stands there, or None where there is no loop."""
        heads = [found for found in map(LOOP.fullmatch, self.text.split('\n')) if found]
        return {word for head in heads for word in re.findall(r'\{(\w+)\}', head[2] + head[3])} if heads else None


class Generated:
    """The scenarios of `generated` with so many events, each of its seed."""

    def __init__(self, word, keys):
        self.path, self.text, self.count = word, word, int(GENERATED.fullmatch(word)[1])
        if keys != ['seed'] or self.count > generated.COUNT_MAX:
            raise command.Refusal(f'{word}: --seeds N..M, no --set, and at most {generated.COUNT_MAX:,} events', command.WRONG_WORDS)

    def with_values(self, values):
        return generated.scenario(int(values['seed']), self.count)

    def loops(self):
        """Scenarios of other seeds have other events."""
        return set()


def repeated(path, text):
    """The text with the lines of its loops as often as they are to stand there."""
    made, block, head = [], [], None
    for number, line in enumerate(text.split('\n'), 1):
        found = LOOP.fullmatch(line)
        if found and head:
            raise command.Refusal(f'{path}:{number}: no loop stands in another one')
        if head and LOOP_END.fullmatch(line):
            made += [one.replace('{' + head[1] + '}', str(at)) for at in numbers_of(path, len(block), head) for one in block]
            head = None
        elif head:
            block.append(line)
        elif found:
            head, block = found, []
        else:
            made.append(line)
    if head:
        raise command.Refusal(f'{path}: a loop without `# end`: {head[0].strip()}')
    return '\n'.join(made)


def numbers_of(path, lines, head):
    """The numbers that a loop of so many lines runs through, of which there may be none."""
    if not all(re.fullmatch(r'\d{1,6}', bound) for bound in (head[2], head[3])):
        raise command.Refusal(f'{path}: a loop wants numbers, or words in braces that are set: {head[0].strip()}', command.WRONG_WORDS)
    numbers = range(int(head[2]), int(head[3]) + 1)
    if len(numbers) * max(1, lines) > LINES_MAX:
        raise command.Refusal(f'{path}: a loop makes more than {LINES_MAX:,} lines: {head[0].strip()}')
    return numbers


def written(value, form):
    """A value as TOML has it, and in place of a word in braces as it is."""
    if form == 'text':
        return f'"{value}"'
    return f'[{", ".join(value.split(":"))}]' if form.startswith('list of two') else value


def combinations(settings):
    """Each way to choose a value of each key, the last key changing first."""
    keys = [key for key, _ in settings]
    for values in itertools.product(*(values for _, values in settings)):
        yield dict(zip(keys, values))
