"""The line of docs/RULES.md by which a record was decided, and what docs/SCENARIOS.md says of its fate."""
import os
import re
from dataclasses import dataclass

import command
import fates

SECTIONS = {'server': ('Server',), 'client': ('Qualification', 'Clients'), 'relay': ('Relays',), 'native': ('Native hosts',)}
WIRE = ('The wire', 'NATs')
# Of an act the parts of a section that speak of it, by a word of their heading; every other one comes after them.
PARTS = {'deliver': ('Reception', 'Advertisements', 'Datagrams', 'that come', 'of the IPv6 side'), 'tick': ('Ticks',),
         'host': ('Transmission', 'that it sends'), 'echo': ('Transmission', 'that it sends'), 'raw': ('Transmission', 'that it sends')}


@dataclass(frozen=True)
class Row:
    """A line of a table: where it stands, what has to hold, and the section of the standard."""
    section: str
    part: str
    condition: str
    standard: str
    line: int


def rows():
    """Each line of the tables of docs/RULES.md whose column `fate` has a word, by that word."""
    found, section, part, at = {}, '', '', None
    for number, line in enumerate(command.read(os.path.join(command.TOP, 'docs', 'RULES.md')).splitlines(), 1):
        cells = [cell.strip() for cell in re.split(r'(?<!\\)\|', line)[1:-1]]
        if line.startswith('## '):
            section, part, at = line[3:], '', None
        elif line.startswith('### '):
            part, at = line[4:], None
        elif not cells:
            at = None
        elif 'fate' in cells[1:]:
            at, standard_at = cells.index('fate'), cells.index('standard') if 'standard' in cells else None
        elif at is not None and at < len(cells):
            for word in re.findall(r'^`(\w+)`', cells[at]):
                standard = cells[standard_at] if standard_at is not None and standard_at < len(cells) else ''
                found.setdefault(word, []).append(Row(section, part, fates.plain(', '.join(cells[:at])), fates.plain(standard), number))
    return found


ROWS = rows()


def rows_of(record, kind):
    """The lines that may have decided a record of a node of this kind: those of one table with its fate, mostly one."""
    act = record.act.partition(':')[0]
    sections = SECTIONS.get(kind, ()) + WIRE
    fitting = [row for row in ROWS.get(record.fate, []) if row.section in sections]
    best = [row for row in fitting if any(word in row.part for word in PARTS.get(act, ()))] or fitting
    first = min(best, key=lambda row: (sections.index(row.section), row.line), default=None)
    return [row for row in best if (row.section, row.part) == (first.section, first.part)]


def shown(row):
    """A line as a dictionary of texts."""
    of = f'RFC 4380, section {row.standard}' if re.fullmatch(r'[\d., ]+', row.standard) else row.standard
    return {'line': row.line, 'where': ', '.join(filter(None, (row.section, row.part))), 'condition': row.condition, 'standard': of}


def told(record, kind):
    """What both pages say of a record, as a dictionary of texts."""
    fate = fates.FATES.get(record.fate)
    said = {'rules': [shown(row) for row in rows_of(record, kind)], 'is_drop': fates.is_drop(record.fate)}
    if fate:
        said |= {'means': fate.means, 'cause': fate.cause, 'look': fate.look}
    return said
