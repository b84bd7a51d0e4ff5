"""Who plays texts: the built program, bounded, so many at once and so long each; or where nothing is built the stored reports of
the examples, and for one page a trial of the sources."""
from __future__ import annotations

import glob
import os
import re
import subprocess
import threading
from collections.abc import Sequence
from typing import Union

import chains
import command
import matrix

SECONDS_MAX = 10  # that a play may take, and as long may one wait for its turn
STDIN = '/dev/stdin'  # the name of the file that a text comes by
UNPROVED = 'the sources were played as they stand, before the program was built: nothing in this page is proved, and where packets went and what ' \
    'nodes keep is not told; ./teredo build builds it, once'
NOT_PLAYED = 'the program is not built, so the examples alone are shown, as they stand; ./teredo build builds it, once'


STORED: dict[str, list[str]] = {'follow': [], 'state': ['each']}  # words whose answer of each example is stored, and what follows CHAIN


class Player:
    note = ''  # what a page says of who played

    def __init__(self, program: str, seconds: float = SECONDS_MAX, count: int = os.cpu_count() or 1, has_session: bool = True) -> None:
        self.program, self.seconds = program, seconds
        self.has_session = has_session  # of its own, which no interrupt of a terminal reaches
        self.turns, self.running, self.lock = threading.BoundedSemaphore(count), set[subprocess.Popen[bytes]](), threading.Lock()
        self.unknown = set[str]()  # the commands of which the program said that it has none such

    def run(self, words: list[str], text: str) -> tuple[int, bytes]:
        """The status of the program with these words and this text on its standard input, and what it wrote."""
        if not self.turns.acquire(timeout=self.seconds):
            raise command.Refusal('too much is played at once; try again')
        try:
            return self.finish(self.start(words), text)
        finally:
            self.turns.release()

    def start(self, words: list[str]) -> subprocess.Popen[bytes]:
        try:
            started = subprocess.Popen([self.program, *words], stdin=subprocess.PIPE, stdout=subprocess.PIPE, stderr=subprocess.DEVNULL,
                                       start_new_session=self.has_session)
        except OSError as fault:
            raise command.Refusal(f'{self.program}: {fault.strerror}', command.UNREADABLE) from None
        except ValueError:  # a zero byte
            raise command.Refusal('a word that no program can be given', command.WRONG_WORDS) from None
        with self.lock:
            self.running.add(started)
        return started

    def finish(self, started: subprocess.Popen[bytes], text: str) -> tuple[int, bytes]:
        try:
            written, _ = started.communicate(encoded(text), timeout=self.seconds)
        except subprocess.TimeoutExpired:
            raise command.Refusal(f'no end within {self.seconds} s') from None
        finally:
            started.kill()
            started.wait()
            with self.lock:
                self.running.discard(started)
        return started.returncode, written

    def answer(self, words: Sequence[str], text: str) -> tuple[int, str]:
        """The same as text."""
        status, written = self.run(list(words), text)
        return status, written.decode('utf-8', 'replace')

    def play(self, text: str) -> tuple[int, str]:
        """The same of a scenario, with the chain that it says."""
        return self.answer(played_by(text), text)

    def wire(self, text: str) -> tuple[int, bytes]:
        """The capture of a scenario's wire."""
        return self.run(['wire', STDIN], text)

    def show(self, data: bytes) -> list[str]:
        """What a datagram's payload is, in lines."""
        return self.run(['show', data.hex()], '')[1].decode('utf-8', 'replace').splitlines()

    def reach(self, text: str) -> list[str] | None:
        """Who reaches whom in the end, in lines; None where the program doesn't know, or doesn't play that."""
        if 'reach' in self.unknown:
            return None
        status, written = self.answer(['reach', STDIN, matrix.chain_for(text)], text)
        self.unknown |= {'reach'} if status == command.WRONG_WORDS else set()
        return written.splitlines() if status == 0 else None

    def close(self) -> None:
        """Ends what is still played."""
        with self.lock:
            for started in self.running:
                started.kill()


class Stored:
    """The examples as they stand, each with the report beside it, and what `state` and `follow` say of it, where there is no program:
    nothing else is played."""
    note = NOT_PLAYED

    def __init__(self) -> None:
        self.unknown = {'reach'}
        self.reports: dict[str, tuple[int, str]] = {}
        self.said: dict[tuple[str, str], str] = {}  # by a word and the text of an example
        told = {word: stored_of(word) for word in STORED}
        for path in glob.glob(os.path.join(command.TOP, 'examples', '*', '*.toml')):
            if os.path.exists(path + '.stdout'):
                status = command.read(path + '.status') if os.path.exists(path + '.status') else '0'
                text, name = command.read(path), os.path.basename(path)
                self.reports[text] = int(status), command.read(path + '.stdout')
                self.said |= {(word, text): said[name] for word, said in told.items() if name in said}

    def answer(self, words: Sequence[str], text: str) -> tuple[int, str]:
        if words[0] in STORED:  # which is asked of what was played, and of that as it says its chain
            is_asked = [*words] == [words[0], STDIN, matrix.chain_for(text), *STORED[words[0]]]
            said = self.said.get((words[0], text)) if is_asked else None
            return (command.NOT_BUILT, '') if said is None else (0, said)
        if [*words] != played_by(text):
            raise command.Refusal(NOT_PLAYED, command.NOT_BUILT)
        return self.play(text)

    def play(self, text: str) -> tuple[int, str]:
        if text not in self.reports:
            raise command.Refusal(NOT_PLAYED, command.NOT_BUILT)
        return self.reports[text]

    def wire(self, text: str) -> tuple[int, bytes]:
        raise command.Refusal(NOT_PLAYED, command.NOT_BUILT)

    def show(self, data: bytes) -> list[str]:
        raise command.Refusal(NOT_PLAYED, command.NOT_BUILT)

    def reach(self, text: str) -> list[str] | None:
        return None

    def close(self) -> None:
        pass


class Trial(Stored):
    """The same, and each other scenario by a trial of the sources, which ./teredo makes once, and of which it says that nothing is proved."""
    note = ''

    def answer(self, words: Sequence[str], text: str) -> tuple[int, str]:
        if words[0] in STORED or [*words] == played_by(text):
            return super().answer(words, text)
        return command.play(command.PROGRAM, text, words[2] if words[0] == 'nested' else None, once=True)

    def play(self, text: str) -> tuple[int, str]:
        if text not in self.reports:
            self.reports[text] = command.play(command.PROGRAM, text, once=True)
            self.note = UNPROVED
        return self.reports[text]


def played_by(text: str) -> list[str]:
    """The words that play a scenario, with the chain that it says."""
    chain = chains.chain_of(text)
    return ['lab', STDIN] if chain is None else ['nested', STDIN, chain]


def stored_of(word: str) -> dict[str, str]:
    """What `state FILE CHAIN each` or `follow FILE CHAIN` says of each example, by its name."""
    path = os.path.join(command.TOP, 'tests', 'stored', f'{word}.txt')
    blocks = re.split(r'^== (\S+)\n', command.read(path), flags=re.M)[1:] if os.path.exists(path) else []
    return dict(zip(blocks[::2], blocks[1::2]))


Playing = Union[Player, Stored]


def player_of(program: str, seconds: float = SECONDS_MAX, once: bool = False) -> Playing:
    """Who plays: the program, or where none is named and none is built the examples alone. Who asks `once` gets others by a trial."""
    try:
        return Player(command.built(program, is_quiet=True), seconds)
    except command.Refusal as fault:
        if fault.status != command.NOT_BUILT:
            raise
        return Trial() if once else Stored()


def encoded(text: str) -> bytes:
    try:
        return text.encode('utf-8')
    except UnicodeEncodeError:
        raise command.Refusal('the text has half of a character in it') from None
