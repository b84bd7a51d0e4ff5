"""What docs/SCENARIOS.md and docs/scenario.schema.json want at each place of a scenario."""
import difflib
import functools
import json
import os
import re
from collections.abc import Iterable, Iterator
from typing import Any

import command
import fates

WORD_MAX = 64  # letters of a word that may be meant for another one

# The list of tables, or the top, of each section of docs/SCENARIOS.md.
SECTION = re.compile(r'^### (?:`\[\[(\w+)\]\]`|The top)', re.M)


@functools.cache
def schema() -> Any:
    return json.loads(command.read(os.path.join(command.TOP, 'docs', 'scenario.schema.json')))


def properties(table: str | None = None) -> dict[str, Any]:
    """The keys of the schema: of the top, or of the tables of a list."""
    top = schema()
    return top['properties'] if table is None else top['properties'][table]['items']['properties']


def described(value: dict[str, Any]) -> str:
    """What the schema says of a value, and where it refers to a definition what that says."""
    if '$ref' in value:
        value = schema()['definitions'][value['$ref'].rpartition('/')[2]]
    return value['description']


@functools.cache
def page_keys() -> dict[tuple[str | None, str], str]:
    """From (list, key) to the type that docs/SCENARIOS.md has. The list of the top is None."""
    page, found = fates.page(), {}
    parts = SECTION.split(page)
    for table, section in zip(parts[1::2], parts[2::2]):
        for key, kind, *_ in fates.rows(section.split('\n#')[0], 'key'):
            found[table, key.strip('`')] = fates.plain(kind)
    return found


def rule(table: str | None, key: str) -> str:
    """What may stand at a key: its type, and what is said of it."""
    return f'{page_keys()[table, key]}: {described(properties(table)[key])}'


@functools.cache
def events() -> dict[str, tuple[list[str], str]]:
    """From an event's first word to its words and what they are."""
    found = {}
    for event in schema()['properties']['events']['items']['anyOf']:
        shape, _, told = event['description'].partition(': ')
        found[shape.split()[0]] = (shape.split(), told)
    return found


def page_events() -> dict[str, list[str]]:
    """The words of each event as docs/SCENARIOS.md has them."""
    texts = [text.strip('`').split() for text, *_ in fates.rows(fates.page().split('## Events')[1].split('\n## ')[0], 'text')]
    return {words[0]: words for words in texts}


def page_chains() -> Iterator[tuple[str, bool]]:
    """Each CHAIN of the table in docs/SCENARIOS.md, and whether it is refused. The empty text stands there in words."""
    for chain, said, _ in fates.rows(fates.page(), 'CHAIN'):
        yield chain.strip('`') if chain.startswith('`') else '', said == '`nested: chain`'


def nearest(word: object, known: Iterable[str]) -> str:
    """What was meant, maybe."""
    if len(str(word)) > WORD_MAX:
        return ''
    found = difflib.get_close_matches(str(word).lower(), list(known), 1, 0.6)
    return meant(found[0]) if found and found[0] != word else ''


def nearest_value(value: str, known: Iterable[str]) -> str:
    """The known value that this one begins with, as `port restricted cone` does with `port`, or else the nearest one."""
    begun = [word for word in known if value.lower().startswith(word)]
    return meant(begun[0]) if begun else nearest(value, known)


def meant(word: str) -> str:
    return f'; did you mean {word}?'
