"""A capture that is longer than the program reads, in pieces, and what `explain` says of them put together.

Each piece begins again some seconds before the end of the one before it, so that an answer finds its question, and what is
said of the packets that a piece repeats is left out. So an answer that came later than that is unlicensed, though in one file
it wouldn't be; and one that nothing licenses counts against its later twins within its piece alone, where in one file it
counts against all of them.
"""
import collections
import re
import struct
from collections.abc import Container, Iterable, Iterator
from typing import IO, NamedTuple

import command
import packets

PIECE_BYTES = 96 * 1024 * 1024  # that `audit` and `explain` read of a file
SNAP = 65535
HEAD = struct.pack('<IHHiIII', 0xa1b23c4d, 2, 4, 0, 0, SNAP, packets.RAW)

LICENCE = re.compile(r' licensed by (\d+)$')


class Record(NamedTuple):
    """A record of a classic capture: its number, its moment, and its bytes with their head."""
    number: int
    nanoseconds: int
    data: bytes


Piece = collections.deque[Record]


def pieces(all_records: Iterable[Record], overlap: float, most: int) -> Iterator[tuple[Piece, int, bool]]:
    """Lists of records that fit into a file of so many bytes each, with the number of the first one that no earlier list
    has, and whether it is the last list."""
    piece, size, new_from = Piece(), len(HEAD), 0
    for record in all_records:
        if size + len(record.data) > most:
            yield piece, new_from, False
            new_from = record.number
            size = keep_late(piece, record.nanoseconds - int(overlap * 10 ** 9))
            if size + len(record.data) > most:
                raise command.Refusal(f'--overlap {overlap:g}: that much is already more than a piece holds')
        piece.append(record)
        size += len(record.data)
    yield piece, new_from, True


def keep_late(piece: Piece, since: int) -> int:
    """Leaves of a piece what came since then; how many bytes that makes with a head."""
    while piece and piece[0].nanoseconds < since:
        piece.popleft()
    return len(HEAD) + sum(len(record.data) for record in piece)


def write_piece(file: IO[bytes], piece: Piece, settled: Container[int] = ()) -> None:
    """Writes a piece; an answer that is settled already, as its question stands before the piece, becomes an empty record."""
    file.write(HEAD)
    for record in piece:
        file.write(record.data[:8] + bytes(8) if record.number in settled else record.data)
    file.flush()


class Sums:
    """The totals over all pieces, from the lines of each."""

    def __init__(self) -> None:
        self.counts, self.waiting = collections.Counter[str](), set[int]()
        self.first: int | None = None

    def add(self, number: int, what: str) -> None:
        """A line of record `number`, once."""
        word = what.split()[0]
        self.counts[word] += 1
        if word == 'asked':
            output = re.search(r' =(\S+)$', what)
            if output is None:
                self.counts['dropped'] += 1
            elif not output[1].startswith('six/'):
                self.waiting.add(number)
        if word == 'answered':
            licence = LICENCE.search(what)
            if licence:
                self.waiting.discard(int(licence[1]))
            else:
                self.counts['unlicensed'] += 1
                self.first = number if self.first is None else self.first

    def total(self, packets_in_all: int) -> str:
        counted = self.counts
        return (f'total packets {packets_in_all} asked {counted["asked"]} answered {counted["answered"]} skipped '
                f'{counted["skipped"]} dropped {counted["dropped"]} silent {len(self.waiting)} unlicensed {counted["unlicensed"]}')

    def verdict(self, packets_in_all: int) -> str:
        if self.first is not None:
            return f'unlicensed {self.first}'
        skipped = self.counts['skipped'] + self.counts['other']
        return f'clean packets {packets_in_all} to {self.counts["asked"]} from {self.counts["answered"]} skipped {skipped}'


def shifted(line: str, by: int) -> str:
    """A line of `explain` with the numbers of its records moved on."""
    line = re.sub(r'^\d+', lambda number: str(int(number[0]) + by), line)
    return re.sub(r'(?<= licensed by )\d+$|(?<= again )\d+$|(?<= near )\d+', lambda number: str(int(number[0]) + by), line)


def new_lines(lines: Iterable[str], first: int, new_from: int, licences: dict[int, int]) -> Iterator[tuple[int, str]]:
    """Of what `explain` says of a piece the lines of its new records, as a number and what is said. Into `licences` goes which
    record licenses each answer of the piece, -1 where none does; what is there already of records before the piece stays."""
    for gone in [number for number, by in licences.items() if number < first or by >= first]:
        del licences[gone]
    for line in lines:
        number, _, what = shifted(line, first).partition(' ')
        if not number.isdigit():
            continue
        if what.startswith('answered '):
            licence = LICENCE.search(what)
            licences[int(number)] = int(licence[1]) if licence else -1
        if int(number) >= new_from:
            yield int(number), what
