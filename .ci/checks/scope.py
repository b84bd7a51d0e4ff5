"""What the words of a text mean in its file."""
from wording import CODE_WORD, WORD, words


class Scope:
    """The names that a file has or brings in; `more` are those of an owner in it, as a trait's."""

    is_code = False

    def __init__(self, files, path, file, more=()):
        self.files, self.path, self.file, self.known = files, path, file, dict(more)

    def meant(self, word):
        if word not in self.known:
            self.known[word] = self.look_up(word)
        return self.known[word]

    def look_up(self, word):
        if word in getattr(self.file, 'names', ()):
            return self.files.name_of(self.path, self.file.names[word])
        found = '|'.join(self.files.meant(*target) for target in sorted(self.file.uses.get(word, ())))
        return found or self.in_code(word)

    def in_code(self, word):
        """The type or constant that the code of a file has, or brings in, by this word."""
        if word in getattr(self.file, 'types', ()) or word in getattr(self.file, 'constants', ()):
            return f'{self.path.split("/")[1]}::{word}'
        targets = sorted(getattr(self.file, 'code_uses', {}).get(word, ()))
        return '|'.join(self.files.meant_in_code(self.path.split('/')[1], *target) for target in targets)

    def spelled(self, word):
        """A word with what it means in place of the part of it that is a name, and that name."""
        if self.meant(word):
            return self.meant(word), self.meant(word)
        head, dot, rest = word.partition('.')
        found = self.meant(head) if dot and head else ''
        if not found.endswith('/'):
            return (found or head) + dot + rest, found
        inner, dot, rest = rest.partition('.')  # of a whole file that is brought in
        found = self.files.defined(found[:-1], inner) or found + inner
        return found + dot + rest, found

    def linked(self, text):
        """A text with what its words mean, and the names in it. What a value is given to is a field or a variable."""
        found = words(text, CODE_WORD if self.is_code else WORD)
        said = [(word, '') if after == '=' and not self.is_code else self.spelled(word) for word, after in zip(found, [*found[1:], ''])]
        return ' '.join(spelled for spelled, _ in said), {name for _, names in said for name in names.split('|') if name}


class CodeScope(Scope):
    """The same of a file's code."""

    is_code = True

    def look_up(self, word):
        return self.in_code(word)
