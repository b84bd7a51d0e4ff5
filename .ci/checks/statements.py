"""Each public statement of the crates, and each definition that one reaches, by name, with a fingerprint of its text.

A text is taken without comments and layout, and each name in it that a `use` line brings in, or that its file defines, stands
for what it means: so a fingerprint changes with a `use` line that gives a name another meaning, and stays where a definition
moves to another file of specs/.
"""
import collections
import functools
import hashlib

from repository import Repository
from scope import CodeScope, Scope

LENGTH = 16  # of a fingerprint, in hexadecimal digits
# What says nothing of the meaning: who sees a definition, and whether a proof unfolds it by itself.
SILENT = ('pub', 'abbrev', 'unfoldable')
STATED = ('signature', 'requires', 'ensures', 'ghost')

# What a name stands for: the kind of thing, its text, the names in it, the path of its file.
Item = collections.namedtuple('Item', 'kind text names path')


class Statements:
    """`items`: by name each thing that a statement may rest on; `stated`: the names of the statements."""

    def __init__(self, top):
        self.files, self.items, self.stated = Repository(top), {}, set()
        for crate in self.files.crates:
            for path, file in self.files.code[crate].items():
                self.read_types(crate, path, file)
                self.read_statements(crate, path, file)
            for path, file in self.files.specs[crate].items():
                self.read_definitions(path, file, False)
            for path, file in self.files.proofs.get(crate, {}).items():
                self.read_definitions(path, file, True)

    def strange(self):
        """What a file has that may hide a part of a statement here, as a comment of another form."""
        return [f'{path}: {mark}' for path, file in self.files.read_so_far.items() for mark in file.strange]

    def add(self, name, kind, text, names, path):
        """Of several things of one name the texts stand behind one another."""
        before = self.items.get(name, Item(kind, '', frozenset(), path))
        self.items[name] = Item(kind, before.text + text + '\n', before.names | names, before.path)

    def read_types(self, crate, path, file):
        scope = CodeScope(self.files, path, file)
        for kind, texts in (('type', file.types), ('constant', file.constants)):
            for name, text in texts.items():
                self.add(f'{crate}::{name}', kind, *scope.linked(text), path)

    def read_statements(self, crate, path, file):
        given, scopes = self.files.exported(crate), {}
        for each in file.statements:
            if is_public(each, path, given):
                scope = scopes.setdefault(each.owner, Scope(self.files, path, file, ghosts_of(crate, file, each.owner)))
                scope = CodeScope(self.files, path, file) if each.kind == 'signature' else scope
                text, names = scope.linked(each.text)
                self.add(name_of(crate, each), each.kind, text, names | beside(crate, each), path)
                self.stated.add(name_of(crate, each))
            if each.kind == 'ghost':  # what rests on a type rests on its ghost lines
                self.add(f'{crate}::{each.owner}', 'type', '', {name_of(crate, each)}, path)

    def read_definitions(self, path, file, states):
        """Where a crate has no code, its public lemmas are what it states, and their equations are proofs."""
        scope = Scope(self.files, path, file)
        for each in file.definitions:
            is_stated = states and each.kind == 'lemma' and each.is_public
            text, names = scope.linked(each.head if is_stated else each.text)
            name = self.files.name_of(path, each.name)
            self.add(name, 'theorem' if is_stated else each.kind, ' '.join(word for word in text.split(' ') if word not in SILENT), names, path)
            self.stated.update([name] if is_stated else [])

    def reached(self, names):
        """These names, and all that they rest on."""
        found, ahead = set(), [name for name in names if name in self.items]
        while ahead:
            name = ahead.pop()
            if name not in found:
                found.add(name)
                ahead += [below for below in self.items[name].names if below in self.items]
        return found

    @functools.cached_property
    def above(self):
        found = collections.defaultdict(set)
        for name, item in self.items.items():
            for below in item.names:
                found[below].add(name)
        return found

    def resting_on(self, name):
        """The statements that rest on a name, it aside."""
        found, ahead = {name}, [name]
        while ahead:
            new = self.above[ahead.pop()] - found
            found |= new
            ahead += new
        return sorted(found & self.stated - {name})

    def locked(self):
        """Of each name that is locked the fingerprint, and the path of its file in its crate."""
        return {name: (fingerprint(self.items[name]), self.items[name].path.split('/', 2)[2]) for name in sorted(self.reached(self.stated))}


def fingerprint(item):
    return hashlib.sha256(item.text.encode()).hexdigest()[:LENGTH]


def is_public(statement, path, given):
    """Is a statement of a file seen outside of its crate, which gives these names on? A program's are, as it is run."""
    is_given = (statement.is_public and (statement.owner or statement.name) in given) or path.endswith('/main.rt')
    return statement.kind == 'ghost' or (statement.kind in STATED and is_given)


def place_of(crate, statement):
    return '::'.join(part for part in (crate, statement.owner, statement.name) if part)


def name_of(crate, statement):
    return ' '.join(part for part in (place_of(crate, statement), statement.kind, statement.label) if part)


def ghosts_of(crate, file, owner):
    return {each.label: name_of(crate, each) for each in file.statements if each.kind == 'ghost' and each.owner == owner}


def beside(crate, statement):
    """What a statement rests on that its text doesn't name: its call's signature, and of that the type that has the call."""
    if statement.kind == 'signature':
        return {f'{crate}::{statement.owner}'}
    return set() if statement.kind == 'ghost' else {f'{place_of(crate, statement)} signature'}
