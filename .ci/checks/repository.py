"""The code and the logic of all crates, and what a name means in a file of theirs."""
import collections
import glob
import os
import re

from contracts import CodeFile
from definitions import LogicFile


# A file of the kit that declares nothing, and one whose names it passes on.
PASSED_ON = {'std.proofs.Common': 'std.specs.Prelude'}


def crates_of(top):
    """The crates of crates.txt that this repository has."""
    with open(f'{top}/crates.txt', encoding='utf-8') as file:
        names = [line.split(':')[0].strip() for line in file if re.match(r'\w+ *:', line)]
    return [name for name in names if os.path.isdir(f'{top}/crates/{name}')]


class Repository:
    """Files by crate and path; the types and constants of each crate, by name: the paths where they stand."""

    def __init__(self, top):
        self.top, self.crates, self.read_so_far = top, crates_of(top), {}
        self.code = {crate: self.read_all(crate, 'src', CodeFile) for crate in self.crates}
        self.specs = {crate: self.read_all(crate, 'specs', LogicFile) for crate in self.crates}
        self.proofs = {crate: self.read_all(crate, 'proofs', LogicFile) for crate in self.crates if not self.statements(crate)}
        self.declared = {crate: self.places(crate) for crate in self.crates}
        self.doubled = {crate: twice(file.defined for file in files.values()) for crate, files in self.specs.items()}

    def read_all(self, crate, folder, kind):
        ending = '.rt' if kind is CodeFile else '.antt'
        paths = sorted(os.path.relpath(path, self.top) for path in glob.glob(f'{self.top}/crates/{crate}/{folder}/**/*{ending}', recursive=True))
        return {path: self.read(path, kind) for path in paths}

    def read(self, path, kind):
        """The file there, read once, or None."""
        if path not in self.read_so_far:
            if not os.path.isfile(f'{self.top}/{path}'):
                return None
            with open(f'{self.top}/{path}', encoding='utf-8') as file:
                self.read_so_far[path] = kind(file.read())
        return self.read_so_far[path]

    def statements(self, crate):
        return [statement for file in self.code[crate].values() for statement in file.statements]

    def places(self, crate):
        found = collections.defaultdict(list)
        for path, file in self.code[crate].items():
            for name in (*file.types, *file.constants):
                found[name].append(path)
        return found

    def exported(self, crate):
        """The names that the root file of a crate gives on."""
        root = self.code[crate].get(f'crates/{crate}/src/lib.rt')
        given = re.findall(r'\bpub use ([^;]*);', root.text) if root else []
        return set(re.findall(r'\w+', re.sub(r'\w+::', '', ' '.join(given))))

    def name_of(self, path, name):
        """What a definition of a file is called: in specs/ the file is no part of it, as long as one file alone has the name."""
        _, crate, folder, *rest = path.split('/')
        is_told = folder != 'specs' or name in self.doubled[crate]
        return '.'.join([crate, *([folder] if folder != 'specs' else []), *(['.'.join(rest)[:-len('.antt')]] if is_told else []), name])

    def defined(self, path, name, seen=()):
        """What a name of a file of the logic is called, where it has it or brings it in."""
        file = self.read(path, LogicFile)
        if file is None or path in seen:
            return None
        if name in file.names:
            return self.name_of(path, file.names[name])
        found = [self.meant(*target, (*seen, path)) for target in sorted(file.uses.get(name, ()))]
        return '|'.join(found) or None

    def meant(self, parts, name, seen=()):
        """What the name of a `use` line of the logic is called; of a whole file its path with a slash behind it."""
        crate, *inner = *parts, name
        if crate in self.crates and inner[:2] == ['specs', 'declared']:
            there = [each for each in reversed(inner[2:]) if each in self.declared[crate]]
            return f'{crate}::{there[0]}' if there else '.'.join([crate, *inner])
        if crate in self.crates and inner:
            whole = f'crates/{crate}/{"/".join(inner)}.antt'
            if self.read(whole, LogicFile):
                return f'{whole}/'
            found = self.defined(f'crates/{crate}/{"/".join(inner[:-1])}.antt', name, seen)
            return found or '.'.join([crate, *inner])
        path = '.'.join(parts)
        return f'{PASSED_ON.get(path, path)}.{name}'

    def meant_in_code(self, own, parts, name):
        """What the name of a `use` line of code is called, where it is a type or a constant of a crate."""
        crate = own if parts[:1] in (('crate',), ('self',), ('super',)) else parts[0] if parts else name
        return f'{crate}::{name}' if crate in self.crates and name in self.declared[crate] else '::'.join([*parts, name])


def twice(groups):
    """The names that stand in two of these groups."""
    counted = collections.Counter(name for group in groups for name in set(group))
    return {name for name, count in counted.items() if count > 1}
