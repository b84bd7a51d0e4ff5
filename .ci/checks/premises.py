"""The premises of theorems on histories, read off the specs.

A theorem on histories is a law of a crate of laws, whose calls take nothing, that `theory_promises` gathers and that stands over `legal`.
A premise is a record over histories of such a crate that stands before an arrow in what a theorem states, or that a premise asks
for. One before an arrow that leads to nothing is none: that is a denial.
"""
import re

from definitions import MEMBER
from scope import Scope
from statements import Statements
from wording import words

GATHERS, HISTORIES, HISTORY = 'theory_promises', 'legal', 'Full'
NOTHING = '⊥'
OPENING, CLOSING = '([{', ')]}'
# The type of a field that names a thing and states nothing of it.
THING = re.compile(r'(?:(?:List|Option) )?[^\s()]+|[^\s()]+ \(?List ℕ\)?')


def is_of_laws(files, crate):
    given = files.exported(crate)
    signatures = [each.text for each in files.statements(crate) if each.kind == 'signature' and each.is_public and (each.owner or each.name) in given]
    return bool(signatures) and all(re.search(r'fn \w+\(\s*\)', text) for text in signatures)


def crates_of(files, uses):
    """The crates of laws below `theory_promises`, over `legal`."""
    below, ahead = set(), [GATHERS]
    while ahead:
        new = {name for name in uses.get(ahead.pop(), ()) if name in uses} - below
        below |= new
        ahead += new
    return sorted(crate for crate in below if HISTORIES in uses[crate] and is_of_laws(files, crate))


def types_of(definition):
    """The types of a record's fields, by their names, or the right sides of equations. What makes a value of a type is no premise."""
    if definition.kind == 'data':
        return
    if definition.kind != 'record':
        yield from ((None, text.partition(' = ')[2]) for text in re.split(r'\n(?=\S)', definition.text)[1:])
        return
    fields = []
    for line in definition.text.splitlines()[1:]:
        if MEMBER.match(line):
            fields.append((MEMBER.match(line)[1], line.partition(' : ')[2]))
        elif fields:
            fields[-1] = (fields[-1][0], f'{fields[-1][1]} {line}')
    yield from fields


def tree(text):
    """The words of a text, what stands in brackets as a list."""
    levels = [[]]
    for word in words(text):
        if word in OPENING:
            levels.append([])
        elif word in CLOSING and len(levels) > 1:
            inner = levels.pop()
            levels[-1].append(inner)
        else:
            levels[-1].append(word)
    return levels[0]


def parted(row, mark):
    found = [[]]
    for each in row:
        if each == mark:
            found.append([])
        else:
            found[-1].append(each)
    return found


def before_arrows(row, is_wanted=False):
    """The first word of each part that stands before an arrow."""
    *ahead, last = parted(row, '→')
    for part in ahead if last != [NOTHING] else ():
        yield from heads(part, not is_wanted)
    yield from heads(last, is_wanted)


def heads(part, is_wanted):
    for each in parted(part, '×'):
        if is_wanted and each and isinstance(each[0], str):
            yield each[0]
        for inner in each:
            if isinstance(inner, list):  # a name with its type, or a part in brackets
                yield from before_arrows(inner[inner.index(':') + 1:] if ':' in inner else inner, is_wanted)


class Premises:
    def __init__(self, top, uses):
        self.statements = Statements(top)
        files = self.statements.files
        self.crates = crates_of(files, uses)
        self.defined = {files.name_of(path, each.name): (each, Scope(files, path, file)) for crate in self.crates
                        for path, file in files.specs[crate].items() for each in file.definitions}

    def is_over_histories(self, name):
        return name in self.defined and HISTORY in self.defined[name][0].head

    def named(self, name):
        """What the types in a definition name."""
        each, scope = self.defined[name]
        return [scope.meant(word) for _, text in types_of(each) for word in words(text)]

    def names(self):
        """The premises by their names: of each its fields, and whether they state something."""
        roots = {name for name in self.statements.stated if name.partition('::')[0] in self.crates}
        found, ahead = set(), []
        for name in self.statements.reached(roots) & set(self.defined):
            each, scope = self.defined[name]
            ahead += [scope.meant(word) for _, text in types_of(each) for word in before_arrows(tree(text))]
        while ahead:
            name = ahead.pop()
            if name not in found and self.is_over_histories(name):
                found.add(name)
                ahead += [inner for inner in self.named(name) if inner in self.defined and self.defined[inner][0].kind == 'record']
        return {name.rpartition('.')[2] for name in found if self.defined[name][0].kind == 'record'}

    def records(self):
        """The records of these crates by their names: of each its fields, whether they state something, and those of records in them."""
        found = {}
        for name, (each, scope) in self.defined.items():
            if each.kind == 'record':
                fields = {field: not THING.fullmatch(' '.join(text.split())) for field, text in types_of(each)}
                inner = [self.defined[below][0] for below in self.named(name) if below in self.defined]
                found[each.name] = (fields, {field for below in inner for field, _ in types_of(below) if field})
        return found
