"""A file of results in CSV: a line on how they came about, a head, and a line for each scenario, which is written as it comes."""
from __future__ import annotations

import csv
import hashlib
import io
import os
import subprocess
import sys
from collections.abc import Iterable, Iterator, Sequence
from typing import Protocol, TextIO

import command

FIRST_COLUMN = 'number'
COMMENT = '# '
DIGEST = 16  # hexadecimal digits that are shown of one

Table = tuple[list[str], list[list[str]]]  # the head of a table in CSV, and its lines


class Sweep(Protocol):
    """What `write` wants of a sweep: the number of its first line, the head, what stands above it, and the lines that are left."""
    first: int
    head: list[str]

    def about(self) -> str: ...

    def lines(self, done: int) -> Iterator[Sequence[object]]: ...


def version() -> str:
    """The version, and the commit: of a package what it says, of a checkout what git says."""
    number = command.read(os.path.join(command.TOP, 'VERSION')).strip()
    if os.path.exists(os.path.join(command.TOP, 'COMMIT')):
        return f'{number}, commit {command.read(os.path.join(command.TOP, "COMMIT")).strip()}'
    commit = git('rev-parse', '--short=12', 'HEAD').strip()
    changes = ', and changes' if commit and git('status', '--porcelain').strip() else ''
    return f'{number}, commit {commit or "unknown"}{changes}'


def git(*words: str) -> str:
    """What git says of this checkout, nothing where there is no git, or no checkout."""
    try:
        return subprocess.run(['git', '-C', command.TOP, *words], stdin=subprocess.DEVNULL, stdout=subprocess.PIPE, stderr=subprocess.DEVNULL,
                              timeout=60).stdout.decode('utf-8', 'replace')
    except (OSError, subprocess.TimeoutExpired):
        return ''


def digest(data: bytes) -> str:
    return hashlib.sha256(data).hexdigest()[:DIGEST]


def about(program: str, path: str, text: str, words: Iterable[str]) -> str:
    """The line above the head: the version, the program and the template by their SHA-256, and the words."""
    try:
        with open(program, 'rb') as file:
            of_program = digest(file.read())
    except OSError as fault:
        raise command.Refusal(f'{program}: {fault.strerror}', command.UNREADABLE) from None
    return command.shown(f'{COMMENT}teredo {version()}; program {of_program}; {os.path.basename(path)} {digest(text.encode())}; {" ".join(words)}')


def before(text: str) -> Table | None:
    """The head and the lines of what was written before, or None where the text is no such thing."""
    lines = [line for line in text.splitlines(keepends=True) if not line.startswith(COMMENT)] if text.startswith(COMMENT) else [text]
    if not ''.join(lines[:1]).startswith(f'{FIRST_COLUMN},'):
        return None
    return rows_of(''.join(lines))


def rows_of(text: str) -> Table:
    try:
        head, *lines = list(csv.reader(io.StringIO(text)))
    except csv.Error as fault:
        raise command.Refusal(f'no CSV: {fault}') from None
    return head, lines


def kept(path: str, sweep: Sweep) -> tuple[list[list[str]], int]:
    """The whole lines that a file has already of a sweep, and how long they are; a line that was broken off is left out."""
    text = command.read(path) if os.path.exists(path) else ''
    whole = text[:text.rfind('\n') + 1]
    told, _, rest = whole.partition('\n')
    if not rest and f'{sweep.about()}\n'.startswith(whole or text):
        return [], 0
    head, lines = rows_of(rest) if told == sweep.about() and rest else (None, [])
    if head != sweep.head or [line[0] for line in lines] != [str(sweep.first + at) for at in range(len(lines))]:
        raise command.Refusal(f'{path}: has lines of something else: of another program, commit, template or other words', command.WRONG_WORDS)
    return lines, len(whole.encode())


def opened(path: str, length: int) -> TextIO:
    """A file to write on behind so many bytes."""
    try:
        file = open(path, 'r+' if length else 'w', encoding='utf-8', newline='')
        file.seek(length)
        file.truncate()
        return file
    except OSError as fault:
        raise command.Refusal(f'{path}: {fault.strerror}', command.UNREADABLE) from None


def write(sweep: Sweep, path: str | None, is_resumed: bool) -> int:
    """Writes each line as it comes; 1 where the program refused one."""
    lines, length = kept(path, sweep) if path and is_resumed else ([], 0)
    file = opened(path, length) if path else sys.stdout
    writer, status = csv.writer(file, lineterminator='\n'), sweep.head.index('status')
    is_refused = any(line[status] not in ('0', '8') for line in lines)
    if not length:
        file.write(sweep.about() + '\n')
        writer.writerow(sweep.head)
    for line in sweep.lines(len(lines)):
        writer.writerow(line)
        file.flush()
        is_refused |= line[status] not in (0, 8)
    if path:
        file.close()
    return command.FOUND if is_refused else 0
