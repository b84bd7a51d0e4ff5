"""The sentences that stand in the code beside public clauses, and in specs/ above definitions.

Of a clause it is the block of `///` lines directly above its `ensures`; of a law, which is a call that takes and gives nothing, those
above the call. Several, each on its own, are items of a list. `See ` with the name of another clause of the crate, at the end, says
that the clause has part in the sentence there, with the beginning of that sentence in quotes where there are several. An `impl` of a
trait has items that begin with the clauses of that trait. Above a field of a record of specs/ each sentence begins with `-- |`.

`Needs: ` and `Leaves open: ` begin the last two parts of a sentence. What is said of a crate as a whole stands at the head of its
root file, below the heading of BESIDE.
"""
import collections
import re

from definitions import MEMBER, head_of

BESIDE = '# Beside the clauses'
PARTS = ('Needs', 'Leaves open')
PART = re.compile(rf'(?:^| )({"|".join(PARTS)}): ')
SEE = re.compile(r'(?:^| )See (`[\w:]+`(?: as `\w+`)?(?:: `\w+`)?)(?:, "([^"]+)")?\.$')
LAW = re.compile(r'\s*pub fn \w+\(\)$')
OF_IMPL = re.compile(r'((?:`\w+`, )*`\w+`): (.*)$', re.S)
OF_FIELD = '-- |'

# Where a sentence may stand: its crate, its file, the number of its line from 0; a type, trait or record, or nothing; a call, or nothing;
# the clause's or the field's label; the trait of an `impl`, or nothing.
Place = collections.namedtuple('Place', 'crate path line owner call label trait')
# A sentence: its text, its parts by name, the place where it stands, and all places that have part in it.
Sentence = collections.namedtuple('Sentence', 'text parts home places')


def name_of(place):
    """What a place is called, where its crate is clear. A trait of the standard library is its own clause."""
    head = f'`{place.owner}` as `{place.trait}`' if place.trait else '`' + '::'.join(part for part in (place.owner, place.call) if part) + '`'
    return f'{head}: `{place.label}`' if place.label and place.label != place.trait else head


def comment_above(lines, number, marks):
    """The lines of comment directly above a line, without what is no text, attributes and places of operators skipped."""
    found = []
    while number > 0 and re.match(r'\s*(?:#\[|infix)', lines[number - 1]):
        number -= 1
    while number > 0 and re.match(rf'\s*(?:{marks})', lines[number - 1]):
        number -= 1
        found.insert(0, lines[number].strip())
    return found


def clause_line(lines, number, label):
    """Above which line the sentence of a clause stands: of a law, which takes nothing, has no name, and gives nothing, above the call."""
    call = next(at for at in range(number, -1, -1) if re.search(r'\bfn \w', lines[at]))
    return call if label == '' and LAW.match(lines[call]) and call + 1 == number else number


def code_block(lines, number):
    """The text above a line: its `///` lines; other comment there is none of it."""
    return [line[3:].strip() for line in comment_above(lines, number, '//') if line.startswith('///')]


def field_items(lines, number):
    """The sentences above a field: each begins with the mark, and its further lines are indented."""
    found, is_read = [], False
    for line in comment_above(lines, number, '--'):
        if line.startswith(OF_FIELD):
            found.append(line.removeprefix(OF_FIELD).strip())
        elif is_read and line.startswith('--  '):
            found[-1] += f' {line[2:].strip()}'
        is_read = bool(found) and line.startswith((OF_FIELD, '--  '))
    return found


def items(block):
    """The sentences of a block, each on one line."""
    found = []
    for line in block:
        if line.startswith('- ') or not found:
            found.append(line.removeprefix('- '))
        elif line:
            found[-1] += f' {line}'
    return found


def impl_items(block):
    """What an `impl` says of the clauses of its trait: (their names, the sentence), of the items of its list alone."""
    listed = items([line for number, line in enumerate(block) if line.startswith('- ') or any(each.startswith('- ') for each in block[:number])])
    return [(re.findall(r'\w+', found[1]), found[2]) for found in map(OF_IMPL.match, listed) if found]


def parted(text):
    """A sentence without its last parts, and these by their names."""
    first, *rest = PART.split(text)
    return first, dict(zip(rest[::2], rest[1::2]))


class Sentences:
    """Of each crate its sentences, `by_crate`; `faults`: what is wrong with them; `places` by crate, whether or not they have one."""

    def __init__(self, files, public):
        """`public`: of a crate the calls that it gives on and that have a clause, as (owner, call)."""
        self.files, self.faults, self.by_crate, self.places = files, [], {}, collections.defaultdict(list)
        for crate in files.crates:
            told = [*self.of_code(crate, public(crate)), *self.of_fields(crate)]
            self.by_crate[crate] = self.joined(crate, told)

    def lines(self, path):
        with open(f'{self.files.top}/{path}', encoding='utf-8') as file:
            return file.read().splitlines()

    def of_code(self, crate, public):
        for path in in_order(self.files, crate):
            lines = self.lines(path)
            for each in self.files.code[crate][path].places:
                block = code_block(lines, each.line if each.label is None else clause_line(lines, each.line, each.label))
                if each.label is None:
                    for labels, text in impl_items(block):
                        yield [Place(crate, path, each.line, each.owner, '', label, each.name) for label in labels], text
                else:
                    place = Place(crate, path, each.line, each.owner, each.name, each.label, '')
                    if path.endswith('/main.rt') or each.is_public and (each.owner, each.name) in public:
                        self.places[crate].append(place)
                    for text in items(block):
                        yield [place], text

    def of_fields(self, crate):
        for path in self.files.specs[crate]:
            record, lines = '', self.lines(path)
            for number, line in enumerate(lines):
                record = head_of(line) or record
                if field := MEMBER.match(line):
                    for text in field_items(lines, number):
                        yield [Place(crate, path, number, record, '', field[1], '')], text

    def joined(self, crate, told):
        """The sentences of a crate, each with the places that have part in it."""
        found, ahead = [], []
        for places, text in told:
            if see := SEE.search(text):
                ahead.append((places, see))
            elif text.startswith('See '):
                self.faults.append(f'{places[0].path}:{places[0].line + 1}: not read: {text}')
            else:
                found.append(Sentence(*parted(text), places[0], list(places)))
        by_name = collections.defaultdict(list)
        for each in found:
            for name in {name_of(place) for place in each.places}:
                by_name[name].append(each)
        for places, see in ahead:
            name = see[1] if see[1] in by_name else f'`{"::".join(part for part in (places[0].owner, places[0].call) if part)}`: {see[1]}'
            meant = [each for each in by_name[name] if each.text.startswith(see[2] or '')]
            if len(meant) != 1:
                self.faults.append(f'{places[0].path}:{places[0].line + 1}: {len(meant)} sentences are meant by: {see[0]}')
            else:
                meant[0].places.extend(places)
        return found

    def beside(self, crate):
        """What the root file says of the crate's clauses as a whole: paragraphs."""
        root = next((path for path in (f'crates/{crate}/src/lib.rt', f'crates/{crate}/src/main.rt') if path in self.files.code[crate]), None)
        return paragraphs(head_lines(self.lines(root)), BESIDE) if root else []

    def title(self, crate):
        """The first sentence of the root file."""
        root = next((path for path in (f'crates/{crate}/src/lib.rt', f'crates/{crate}/src/main.rt') if path in self.files.code[crate]), None)
        first = ' '.join(paragraphs(head_lines(self.lines(root)), None)[:1])
        return re.split(r'(?<=[^.]\.)\s', first)[0]


def head_lines(lines):
    return [line[3:].strip() for line in lines[:next((number for number, line in enumerate(lines) if not line.startswith('//!')), len(lines))]]


def paragraphs(lines, heading):
    """The paragraphs below a heading, or, without one, above the first."""
    begin = lines.index(heading) + 1 if heading in lines else len(lines) if heading else 0
    end = next((number for number in range(begin, len(lines)) if lines[number].startswith('# ')), len(lines))
    return [' '.join(part.split('\n')) for part in '\n'.join(lines[begin:end]).strip().split('\n\n') if part.strip()]


def in_order(files, crate):
    """The files of a crate's code in the order in which its root file tells its parts, the others behind them."""
    root = next((path for path in (f'crates/{crate}/src/lib.rt', f'crates/{crate}/src/main.rt') if path in files.code[crate]), None)
    if root is None:
        return list(files.code[crate])
    told = re.findall(r'`(\w+)`', ' '.join(row.split('|')[1] for row in re.findall(r'^//! (\|.*)$', files.code[crate][root].source, re.M)))
    order = {name: number for number, name in reversed(list(enumerate(told)))}
    return sorted(files.code[crate], key=lambda path: (order.get(path.split('/')[-1][:-len('.rt')], len(told)), path))
