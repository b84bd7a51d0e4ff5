"""How proofs cite lower crates: each fact in one way.

- A law, by its name, from proofs/LawProofs.antt of the crate that states it; a crate's own files name the lemma where it stands.
- A lemma that speaks of no code, from the file where it stands, which its crate makes public (`pub mod`).
- No lemma takes a law as a parameter, and no record of proofs/ has one as a field: who calls would hand on what can be named.
- A law's function has no body, as it is there to be told, and hands no other law on.
"""
import collections
import re

from parameters import groups, lemmas_said, split

LAWS = 'LawProofs'
IMPORT = re.compile(r'^(?:unfoldable )?(?:pub )?use Rattle\.(\w+)\.proofs\.([\w.+]+?)(?:\.\{([^}]*)\}| as \w+)?$', re.M)
# A law's function: it takes nothing, and ensures one statement; what it says of itself, and its body.
LAW = re.compile(r'^ *(?:pub(?:\(\w+\))? )?fn (\w+)\(\)\n((?: +\w.*\n)*) *\{([^}]*)\}$', re.M)
ENSURES = re.compile(r'ensures (?:\w+ )?\{ ([\w.]+) \}')
RECORD = re.compile(r'^(?:pub )?record (?:.|\n)*? where\n((?: +.*\n?)*)', re.M)
FIELD = re.compile(r'^  (?:pub )?[\w-]+ : ([\w.]+)$', re.M)
# What the prover asks of a function, and what answers it, below its name: a file that names it speaks of code.
OF_CODE = re.compile(r'\.(Goals|Given|Answers|Invariants)$')


def imports(text):
    """Each file of proofs that a file names: its crate, its path, and the names that are taken of it."""
    for crate, file, names in IMPORT.findall(text):
        yield crate, file, [name.split(' as ')[0].strip() for name in names.split(',') if name.strip()]


def public_files(files, root, folder):
    """The files that a file makes public, by their paths: what stands in a folder is named by the file of the folder's name."""
    for name in re.findall(r'^pub mod (\w+)$', files.get(root, ''), re.M):
        yield folder + name
        yield from public_files(files, folder + name, f'{folder}{name}.')


class Crates:
    """The proofs of all crates: what each file says, and what of it is public."""

    def __init__(self, names, paths, read):
        self.files, self.public, self.laws, self.bodies = collections.defaultdict(dict), {}, {}, []
        self.stated = {}
        for path in paths:
            place = re.match(r'crates/(\w+)/(proofs|src)/(.+)\.(antt|rt)$', path)
            if place and place[1] in names:
                if place[4] == 'antt':
                    self.files[place[1]][place[3].replace('/', '.')] = read(path)
                else:
                    self._tell(place[1], path, read(path))
        for name, files in self.files.items():
            self.public[name] = set(public_files(files, 'Lib', ''))
            self.laws[name] = {(file, law) for crate, file, laws in imports(files.get(LAWS, '')) if crate == name for law in laws
                               if re.search(rf'^pub use Rattle\.{name}\.proofs\.{re.escape(file)}\.\{{[^}}]*\b{re.escape(law)}\b', files[LAWS], re.M)}

    def _tell(self, name, path, text):
        for law, said, body in LAW.findall(text):
            stated = ENSURES.findall(said)
            if len(stated) == 1 and re.fullmatch(r'[A-Z]\w*', stated[0]):
                self.stated[stated[0]] = name
                if body.strip():
                    self.bodies.append(f'{path}: the law `{law}` has a body')

    def speaks_of_code(self, name, file, known):
        """Whether a file, or one of its own crate that it names, names what the prover wrote of a function."""
        if file not in known:
            known.add(file)
            for crate, other, _ in imports(self.files[name].get(file, '')):
                if crate == name and (OF_CODE.search(other) or self.speaks_of_code(name, other, known)):
                    return True
        return False

    def wrong_import(self, name, crate, file, taken):
        """What is wrong about one import of a lower crate's proofs."""
        if file == LAWS:
            return None
        if file not in self.public[crate]:
            return f'{crate} keeps its file {file} to itself'
        laws = sorted(law for law in taken if (file, law) in self.laws[crate])
        if laws:
            return f'{", ".join(laws)} of {crate} is a law: its name is in {LAWS}'
        return f'{crate}\'s file {file} speaks of code' if self.speaks_of_code(crate, file, set()) else None

    def handed(self, text):
        """The laws that a file's lemmas, sections and records take."""
        parts = [part for said in lemmas_said(text) for part in said]
        types = parts + [kind for record in RECORD.findall(text) for kind in FIELD.findall(record)]
        types += [group[1:-1].partition(' : ')[2].strip() for part in parts for group in groups(part)]
        return sorted({kind for kind in types if kind in self.stated})


def faults(names, paths, read):
    """Each citation that isn't so; the names of the crates stand in their order."""
    crates = Crates(names, paths, read)
    yield from crates.bodies
    for name in names:
        for file, text in sorted(crates.files[name].items()):
            path = f'crates/{name}/proofs/{file.replace(".", "/")}.antt'
            for crate, other, taken in imports(text):
                wrong = crate != name and crate in crates.files and crates.wrong_import(name, crate, other, taken)
                if wrong:
                    yield f'{path}: {wrong}'
            handed = crates.handed(text) if file != LAWS else []
            if handed:
                yield f'{path}: takes the law {", ".join(handed)}, which it can name'
