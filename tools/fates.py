"""The words of the fates, as docs/SCENARIOS.md has them: what each means, its likely cause, and where to look next."""
import os
import re
from collections.abc import Iterator
from dataclasses import dataclass

import command


@dataclass(frozen=True)
class Fate:
    word: str
    is_drop: bool
    of: str
    means: str
    cause: str
    look: str


def rows(page: str, head: str) -> Iterator[list[str]]:
    """The cells of each row of the tables whose first column has this head."""
    is_in = False
    for line in page.splitlines():
        cells = [cell.strip().replace('\\|', '|') for cell in re.split(r'(?<!\\)\|', line)[1:-1]]
        if not cells:
            is_in = False
        elif cells[0] == head:
            is_in = True
        elif is_in and not re.fullmatch(r':?-+:?', cells[0]):
            yield cells


def page() -> str:
    return command.read(os.path.join(command.TOP, 'docs', 'SCENARIOS.md'))


def plain(cell: str) -> str:
    """A cell without the marks of its links and its code."""
    return re.sub(r'\[([^]]*)\]\([^)]*\)', r'\1', cell).replace('`', '').replace('**', '')


def table() -> dict[str, Fate]:
    """Each fate by its word."""
    found = {}
    for name, of, means, cause, look in rows(page(), 'fate'):
        for word in re.findall(r'`(\w+)`', name):
            found[word] = Fate(word, name.startswith('**'), plain(of), plain(means), plain(cause), plain(look))
    return found


FATES = table()


def is_drop(fate: str) -> bool:
    """Whether docs/SCENARIOS.md has a fate as a drop; of one that it doesn't have nobody knows."""
    return fate in FATES and FATES[fate].is_drop
