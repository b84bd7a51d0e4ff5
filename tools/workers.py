"""Work by several processes, in order, that an interrupt ends at once."""
from __future__ import annotations

import contextlib
import multiprocessing
import os
import signal
import sys
import time
from collections.abc import Callable, Iterable, Iterator
from typing import TextIO, TypeVar

import command

REPORT_S = 0.2  # between two progress lines
CHUNK_MAX = 16  # items that a process takes at once
WIDTH = 28  # of a progress bar

Item = TypeVar('Item')
Made = TypeVar('Made')


def processors() -> int:
    """As many as this process may use."""
    return len(os.sched_getaffinity(0)) if hasattr(os, 'sched_getaffinity') else os.cpu_count() or 1


def quiet() -> None:
    signal.signal(signal.SIGINT, signal.SIG_IGN)  # who started the work ends it


class Pool:
    """So many processes; with one the work is done here."""

    def __init__(self, count: int) -> None:
        self.count = count
        self.pool = multiprocessing.Pool(count, quiet) if count > 1 else None

    def each(self, function: Callable[[Item], Made], items: Iterable[Item], count: int) -> Iterator[Made]:
        """The results, in the order of the items, of which there are so many."""
        if self.pool is None:
            yield from map(function, items)
            return
        size = max(1, min(CHUNK_MAX, count // (4 * self.count)))
        yield from self.pool.imap(function, items, size)

    def __enter__(self) -> Pool:
        return self

    def __exit__(self, *fault: object) -> None:
        if self.pool is not None:
            self.pool.terminate()
            self.pool.join()


class Progress:
    """A line at a terminal, written anew again and again; nothing where nobody looks."""

    def __init__(self, stream: TextIO = sys.stderr) -> None:
        self.stream, self.last, self.width = stream, 0.0, 0
        self.is_seen = stream.isatty()

    def show(self, text: str, is_last: bool = False) -> None:
        now = time.monotonic()
        if not self.is_seen or now - self.last < REPORT_S and not is_last:
            return
        self.last = now
        with contextlib.suppress(OSError):
            self.stream.write('\r' + text.ljust(self.width) + '\r' * is_last)
            self.stream.flush()
        self.width = len(text)

    def end(self) -> None:
        self.show('', True)


def bar(done: int, whole: int) -> str:
    """How far it is, as text."""
    full = WIDTH * done // whole if whole else WIDTH
    return f'[{"#" * full}{"." * (WIDTH - full)}] {done:,} of {whole:,}'


def count_of(text: str) -> int:
    """A number of processes, as words have it."""
    number = command.number(text)
    if not 1 <= number <= 1024:
        raise command.argparse.ArgumentTypeError(f'no number of processes: {text}')
    return number
