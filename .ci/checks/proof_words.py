"""The words of a crate's proofs: proofs/Words.antt says once where each is defined, and lemma files name them from there.

Each lemma file had a line for each file of definitions that it names, and these lines were a fourth of all proofs. A crate
that has a Words.antt is kept so: run `.ci/words` after an import was added or dropped. What a file still imports by itself: the
lemmas of its own crate; a module under a name; a word by which another file of the crate means another thing.
"""
import collections
import os
import re

WORDS = 'Words.antt'
ROOT = 'Lib.antt'
HEAD = "-- Where the words of this crate's proofs are defined: its files name them from here. `.ci/words` keeps this file.\n"
# A line of imports: its marks, the module, and the words in braces.
IMPORT = re.compile(r'^(unfoldable )?(?:pub )?use (Rattle\.(\w+)\.[\w.]+)\.\{([^}]*)\}\n', re.M)
UNFOLDING = re.compile(r'^( *)unfolding (.*\n(?:\1 +\S.*\n)*)', re.M)
UNFOLD_IN = re.compile(r'\bunfold (.*?) in\b')
COMMON, PRELUDE = 'Rattle.std.proofs.Common', 'Rattle.std.specs.Prelude'


class Word:
    """A word as a file imports it: the module, its name there, and the name that it has in the file."""

    def __init__(self, module, text):
        self.module, self.text = module, text
        self.item, _, name = text.partition(' as ')
        self.name = name or self.item

    @property
    def meaning(self):
        return (self.module, self.item)


def imported(text):
    """Each word of the imports of a file."""
    for _, module, _, words in IMPORT.findall(text):
        for word in re.split(r',\s*', words.strip().rstrip(',')):
            yield Word(module, word)


def unfolded(text):
    """The words that a file unfolds."""
    lines = ' '.join([words for _, words in UNFOLDING.findall(text)] + UNFOLD_IN.findall(text))
    return set(lines.split())


def one_of(ways):
    """The word that is meant, where these are one; what std's common file passes on of its prelude is the same there."""
    if len(ways) == 2 and {module for module, _ in ways} == {COMMON, PRELUDE} and len({item for _, item in ways}) == 1:
        return next(word for word in ways.values() if word.module == COMMON)
    return next(iter(ways.values())) if len(ways) == 1 else None


class Proofs:
    """The lemma files and answers of a crate, with the words that they import."""

    def __init__(self, name, texts):
        """`texts` has each file below proofs/ by its path there."""
        self.name, self.own = name, f'Rattle.{name}.proofs.'
        self.passed = self.own + WORDS.removesuffix('.antt')
        self.table = texts.get(WORDS, '')
        self.is_kept = self.table.startswith(HEAD)
        self.files = {path: text for path, text in sorted(texts.items()) if os.path.basename(path) not in (ROOT, WORDS)}
        self.known = {word.name: word for word in imported(self.table)}
        self.words = {path: [self.known.get(word.name, word) if word.module == self.passed else word for word in imported(text)]
                      for path, text in self.files.items()}
        self.shared = self._shared()

    def _shared(self):
        """The words that one file can say for all: each file that imports one means the same."""
        meanings = collections.defaultdict(dict)
        for words in self.words.values():
            for word in words:
                meanings[word.name].setdefault(word.meaning, word)
        only = {name: one_of(ways) for name, ways in meanings.items()}
        return {name: word for name, word in only.items() if word and not word.module.startswith(self.own)}

    def made(self, order):
        """Words.antt: a line a module, in the order of the libraries, and one for what is unfolded of it."""
        opened = set().union(*({word.name for word in self.words[path]} & unfolded(text) for path, text in self.files.items()))
        lines = collections.defaultdict(set)
        for name, word in self.shared.items():
            lines[order(word.module), word.module, name in opened].add(word.text)
        return HEAD + ''.join(f'{"unfoldable " if opens else ""}pub use {module}.{{{", ".join(sorted(texts))}}}\n'
                              for (_, module, opens), texts in sorted(lines.items()))

    def folded(self, path):
        """A file of lemmas with one line for the words that the crate shares, where the first of them stood."""
        taken = sorted({word.name for word in self.words[path]} & set(self.shared))
        line, text = f'use {self.passed}.{{{", ".join(taken)}}}\n', self.files[path]
        touched = [found for found in IMPORT.finditer(text) if found[2] == self.passed or self._kept(found) != found[0]]
        for found in reversed(touched):
            text = text[:found.start()] + (line if taken and found is touched[0] else '') + self._kept(found) + text[found.end():]
        return text

    def _kept(self, found):
        """What is left of a line of imports without the words that the crate shares."""
        words = [self.known.get(word.name, word) if found[2] == self.passed else word for word in imported(found[0])]
        kept = [word for word in words if word.name not in self.shared]
        if len(kept) == len(words) and found[2] != self.passed:
            return found[0]
        modules = dict.fromkeys(word.module for word in kept)
        return ''.join(f'use {module}.{{{", ".join(word.text for word in kept if word.module == module)}}}\n' for module in modules)


def proofs_of(top, name):
    """The proofs of a crate as they stand."""
    folder, texts = os.path.join(top, 'crates', name, 'proofs'), {}
    for where, _, names in os.walk(folder):
        for file in names:
            if file.endswith('.antt'):
                path = os.path.join(where, file)
                with open(path, encoding='utf-8') as text:
                    texts[os.path.relpath(path, folder)] = text.read()
    return Proofs(name, texts)


def by_layer(crates):
    """The place of a module's library: of the kit, or the line of crates.txt."""
    places = {name: place for place, name in enumerate(crates, 1)}
    return lambda module: places.get(module.split('.')[1], 0)


def faults(top, crates):
    """What `.ci/words` would change in crates that have a Words.antt."""
    for name in crates:
        if not os.path.exists(os.path.join(top, 'crates', name, 'proofs', WORDS)):
            continue
        proofs = proofs_of(top, name)
        if not proofs.is_kept:
            continue
        made, stands = proofs.made(by_layer(crates)), proofs.table
        if made != stands:
            lost = {word.name for word in imported(stands)} - set(proofs.shared)
            said = f'has {", ".join(sorted(lost))}, and no file wants it' if lost else "isn't as .ci/words makes it"
            yield f'crates/{name}/proofs/{WORDS}: {said}'
        for path, text in proofs.files.items():
            if proofs.folded(path) != text:
                yield f'crates/{name}/proofs/{path}: imports what {WORDS} gives, or not as .ci/words does'
