"""The definitions that stand in a file of Rattle's logic."""
import collections
import re

from wording import LOGIC_COMMENT, strange, uses, without_comments

KEYWORDS = ('abbrev', 'unfoldable', 'pub', 'record', 'data')
MEMBER = re.compile(r"^  (?:pub )?([^\s:(){}]+) :(?:\s|$)")
LONG_COMMENT = ('{-', '-}')
# What is no part of a definition's text.
SILENT = re.compile(r'(?:pub )?(?:use|mod) |unfolding ')
# A part of the name of an operator, as `>>=` of `◌>>=◌`.
HOLE = '◌'

# `head` is the text in front of its equations.
Definition = collections.namedtuple('Definition', 'name text head kind is_public')


class LogicFile:
    """The definitions of a file, by name; what else stands for one, as its constructors; and what the file uses."""

    def __init__(self, text):
        self.strange = [found[0]] if (found := strange(text, True)) and found[0] in LONG_COMMENT else []
        text = without_comments(text, LOGIC_COMMENT)
        self.uses, self.names = uses(text)[0], {}
        found, ahead = [], []
        for line in text.splitlines():
            name = head_of(line)
            if re.match(r'infix[lr]? ', line):
                ahead = [line]
            elif name:
                found.append((name, [*ahead, line]))
                ahead = []
            elif found and line.strip() and not SILENT.match(line):
                found[-1][1].append(line)
        self.definitions = [Definition(name, '\n'.join(lines), head_text(lines), kind_of(lines), ' pub ' in f' {lines[0]} ') for name, lines in found]
        self.defined = {definition.name for definition in self.definitions}
        for definition in self.definitions:
            self.names.update(dict.fromkeys(stands_for(definition), definition.name))


def head_of(line):
    """The name that a line begins to define, or None."""
    if not line or line[0].isspace():
        return None
    first = line.split()
    keywords = [word for word in first if word in KEYWORDS]
    rest = first[len(keywords):]
    if first[:len(keywords)] != keywords or not rest or rest[0] in ('use', 'mod'):
        return None
    return rest[0] if keywords or rest[1:2] == [':'] else None


def head_text(lines):
    """The first line, and what is indented below it."""
    behind = next((number for number, line in enumerate(lines[1:], 1) if not line[0].isspace()), len(lines))
    return '\n'.join(lines[:behind])


def kind_of(lines):
    head = next(line for line in lines if not line.startswith('infix')).split()
    return next((word for word in head[:3] if word in KEYWORDS and word != 'pub'), 'lemma')


def stands_for(definition):
    """The names that mean a definition: its own, the parts of an operator, the constructors of a type."""
    yield definition.name
    yield from (part for part in definition.name.split(HOLE) if part and HOLE in definition.name)
    if definition.kind == 'data':
        yield from members(definition)


def members(definition):
    """The constructors of a type, or the fields of a record."""
    return [found[1] for found in map(MEMBER.match, definition.text.splitlines()) if found]
