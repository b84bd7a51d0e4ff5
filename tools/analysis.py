"""A question of the laboratory's page, answered by a process of its own, whose time and memory are bounded. `web` starts it.

`python3 analysis.py PROGRAM`, or - in the place of a program for the stored examples alone. On standard input the question's word
stands on a line of its own, and behind it what was sent, as JSON; on standard output the status and the kind of the answer do, and
behind them the answer. A question is answered, and the process ends.
"""
from __future__ import annotations

import contextlib
import json
import os
import re
import sys
from typing import Any, NoReturn

sys.dont_write_bytecode = True

import command
import gallery
import page
import parts
import player
import probes
import view
from player import Playing

Sent = dict[str, Any]  # what the page sent, whatever it is
Answer = tuple[str, bytes]  # the type and the bytes
TEXT_MAX = 4_194_304  # bytes of a scenario
MEMORY_MAX = 1 << 30  # bytes that an answer may take
SECONDS_MAX = 20  # of a processor that it may take
JSON, HTML, TEXT, BYTES = 'application/json', 'text/html; charset=utf-8', 'text/plain; charset=utf-8', 'application/octet-stream'
KINDS = (JSON, HTML, TEXT, BYTES)
WORDS = ('play', 'two', 'probe', 'datagram', 'report', 'capture', 'page')  # of questions
NAME = re.compile('[a-z][a-z0-9_]{0,15}')
TOO_MUCH = f'that is too much for this page: an answer may take {SECONDS_MAX} s and {MEMORY_MAX >> 20:,} MiB'


class Laboratory:
    """What is asked for, answered: each a function from what was sent, a dictionary, to the type and the bytes of the answer."""

    def __init__(self, playing: Playing) -> None:
        self.playing = playing
        self.answers = {word: getattr(self, word) for word in WORDS}

    def play(self, sent: Sent) -> Answer:
        return JSON, page.as_json(view.view_of(self.playing, text_of(sent), name_of(sent), number_of(sent, 'first') or 0, number_of(sent, 'event'))).encode()

    def two(self, sent: Sent) -> Answer:
        text, packet = gallery.two_hosts(sent, self.playing.play)
        return JSON, page.as_json({'text': text, 'packet': packet}).encode()

    def probe(self, sent: Sent) -> Answer:
        names = [name for name in (sent.get('from'), sent.get('to')) if isinstance(name, str) and NAME.fullmatch(name)]
        if len(names) != 2:
            raise command.Refusal('no names of two hosts')
        sender, receiver = names
        text, event = probes.probe(text_of(sent), sender, receiver, self.playing.play)
        return JSON, page.as_json({'text': text, 'event': event}).encode()

    def datagram(self, sent: Sent) -> Answer:
        number, carried = number_of(sent, 'number'), page.payloads_of(page.capture_of(self.playing, text_of(sent)))
        if number is None or number >= len(carried):
            raise command.Refusal('there is no entry of this number')
        return JSON, page.as_json(parts.parts_of(carried[number], self.playing.show(carried[number]))).encode()

    def report(self, sent: Sent) -> Answer:
        return TEXT, self.playing.play(text_of(sent))[1].encode()

    def capture(self, sent: Sent) -> Answer:
        return BYTES, page.capture_of(self.playing, text_of(sent))

    def page(self, sent: Sent) -> Answer:
        return HTML, page.page_of(self.playing, text_of(sent), name_of(sent)).encode()


def text_of(sent: Sent) -> str:
    text = sent.get('text')
    if not isinstance(text, str) or len(player.encoded(text)) > TEXT_MAX:
        raise command.Refusal(f'a scenario is a text of at most {TEXT_MAX:,} bytes')
    return text


def name_of(sent: Sent) -> str:
    name = sent.get('name')
    return name[:80] if isinstance(name, str) and name else 'scenario.toml'


def number_of(sent: Sent, key: str) -> int | None:
    number = sent.get(key)
    return number if type(number) is int and 0 <= number < 1 << 31 else None


def bound() -> None:
    """Bounds this process, and what it starts, where the system can."""
    with contextlib.suppress(ImportError, ValueError, OSError):
        import resource
        resource.setrlimit(resource.RLIMIT_CPU, (SECONDS_MAX, SECONDS_MAX))
        resource.setrlimit(resource.RLIMIT_AS, (MEMORY_MAX, MEMORY_MAX))


def answered(playing: Playing, word: str, data: bytes) -> tuple[int, str, bytes]:
    """The status, the kind and the bytes of an answer. Whatever goes wrong, nothing of the inside is told."""
    try:
        sent = json.loads(data)
    except (ValueError, RecursionError):
        sent = None
    if not isinstance(sent, dict):
        return 400, TEXT, b'the body is no object of JSON\n'
    try:
        kind, body = Laboratory(playing).answers[word](sent)
        return 200, kind, body
    except command.Refusal as fault:
        return 422, TEXT, f'{fault}\n'.encode('utf-8', 'replace')
    except (RecursionError, MemoryError):
        return 422, TEXT, f'{TOO_MUCH}\n'.encode()
    except Exception as fault:  # ours: the page says so
        return 500, TEXT, f'a fault of this tool: {type(fault).__name__}; please tell its authors\n'.encode()


def main() -> NoReturn:
    bound()
    program = sys.argv[1]
    playing: Playing = player.Stored() if program == '-' else player.Player(program, has_session=False)
    word = sys.stdin.buffer.readline().decode().strip()
    status, kind, body = answered(playing, word, sys.stdin.buffer.read())
    sys.stdout.buffer.write(f'{status} {KINDS.index(kind)}\n'.encode() + body)
    sys.stdout.buffer.flush()
    os._exit(0)  # what is left of the answer needs no tidying


if __name__ == '__main__':
    main()
