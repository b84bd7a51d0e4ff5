"""A wire that loses and delays: what lies on it is delivered by chance, drawn from the scenario's seed, and so in any order.

In place of each `settle`, and of each row of `next`, everything is delivered that lies on the wire, and what comes of it: an entry is
never delivered with some probability, and else so many milliseconds after it was made, at the earliest now. Time passes meanwhile, by
`advance`. What is drawn of an entry depends on the seed and the entry's number alone, so that each scenario is played again as it was.
"""
from __future__ import annotations

import hashlib
import json
import re
from dataclasses import dataclass

import chains
import command
import toml_places
from report import Entry, Report

DELIVERING = ('settle', 'next')
PERCENT = re.compile(r'0(\.\d{1,9})?|1(\.0{1,9})?|\.\d{1,9}')
SPREAD = re.compile(r'(\d{1,7})(?:\.\.(\d{1,7}))?')
DELIVERIES_MAX = 2000  # of one scenario


@dataclass(frozen=True)
class Chance:
    """With which probability an entry is lost, and how many milliseconds it takes at least and at most."""
    lose: float = 0.0
    low: int = 0
    high: int = 0

    @property
    def is_any(self) -> bool:
        return self.lose > 0 or self.high > 0

    def is_lost(self, seed: object, number: int) -> bool:
        return drawn(seed, number, 'lose') < self.lose

    def delay(self, seed: object, number: int) -> int:
        return self.low + int(drawn(seed, number, 'delay') * (self.high - self.low + 1))


def drawn(seed: object, number: int, what: str) -> float:
    """A number from 0 up to 1, without it."""
    return int.from_bytes(hashlib.sha256(f'{seed} {number} {what}'.encode()).digest()[:7], 'big') / (1 << 56)


def probability(text: str) -> float:
    """A probability as words have it, from 0 to 1."""
    if not PERCENT.fullmatch(text):
        raise command.argparse.ArgumentTypeError(f'no number from 0 to 1: {text[:20]}')
    return float(text)


def spread(text: str) -> tuple[int, int]:
    """A number of milliseconds, or A..B."""
    found = SPREAD.fullmatch(text)
    if not found or int(found[2] or found[1]) < int(found[1]):
        raise command.argparse.ArgumentTypeError(f'no milliseconds, as 20 or 10..80: {text[:20]}')
    return int(found[1]), int(found[2] or found[1])


class Play:
    """A scenario that is played by chance: the events so far, and of each event of its text which one it has become."""

    def __init__(self, program: str, text: str, chance: Chance) -> None:
        top = toml_places.read(text)
        self.program, self.text, self.chance, self.chain = program, text, chance, chains.chain_of(text)
        self.list, self.seed = top.table['events'], top.table['seed'].value
        self.events, self.numbers, self.now, self.count = list[str](), dict[int, int](), 0, 0
        self.status = 0
        self.report: Report | None = None
        self.whole([event.plain() for event in self.list.items])

    def whole(self, events: list[str]) -> None:
        """Plays the events, until the program has something else to say than a report."""
        for number, event in enumerate(events):
            if event not in DELIVERING:
                self.numbers[number] = len(self.events)
                self.add([event])
            elif events[number + 1:number + 2] not in ([word] for word in DELIVERING) and not self.deliver():
                return
        self.play()

    def add(self, events: list[str]) -> None:
        self.events += events
        self.now += sum(int(event.split(' ')[1]) for event in events if re.fullmatch(r'advance \d{1,10}', event))

    def text_now(self) -> str:
        return self.text[:self.list.start] + json.dumps(self.events) + self.text[self.list.end:]

    def play(self) -> bool:
        """Plays the events so far; whether there is a report of all of them."""
        self.status, self.written = command.play(self.program, self.text_now(), self.chain)
        self.report = Report(self.written) if self.status in (0, 8) else None
        return self.status == 0

    def made(self) -> list[Entry]:
        """The entries of what is played so far."""
        return list(self.report.entries.values()) if self.report else []

    def due_of(self, entry: Entry) -> int:
        """When an entry comes, where time doesn't stand still."""
        return entry.maker.moment + self.chance.delay(self.seed, entry.number)

    def left(self) -> list[tuple[int, int]]:
        """When each entry comes that comes still, and its number, in their order."""
        report = self.report
        return sorted((max(self.now, self.due_of(entry)), entry.number) for entry in self.made()
                      if report and not report.delivered(entry) and not self.chance.is_lost(self.seed, entry.number))

    def deliver(self) -> bool:
        """Delivers all that comes; whether there is a report still."""
        while self.play():
            left = self.left()
            if not left:
                return True
            until = self.let_pass(left[0][0], left[0][0] + self.chance.low)
            for moment, number in left:
                if moment <= until and self.status == 0:
                    self.add([f'advance {moment - self.now}'] * (moment > self.now) + [f'deliver {number}'])
                    self.count += 1
            if self.count > DELIVERIES_MAX:
                raise command.Refusal(f'no end after {DELIVERIES_MAX:,} deliveries')
        return False

    def let_pass(self, moment: int, until: int) -> int:
        """Lets time pass until an entry comes, or one that is made meanwhile and comes sooner. What comes until the moment that is
        answered is known then: what is made later comes later, too."""
        before, begun = len(self.events), self.now
        if moment == begun:
            return until
        self.add([f'advance {moment - begun}'])
        if not self.play():
            return until
        made = [self.due_of(entry) for entry in self.made()
                if entry.maker.event == before and not self.chance.is_lost(self.seed, entry.number)]
        self.now = min([moment, *made])
        self.events[before] = f'advance {self.now - begun}'
        return min([until, *made])
