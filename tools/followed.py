"""Where each packet went, read from the lines of `follow FILE CHAIN` of the program."""
from __future__ import annotations

import re
from dataclasses import dataclass, field

from command import Refusal

GOES, WAITS, HELD, ARRIVES, ENDS = 'goes', 'waits', 'held', 'arrives', 'ends'
ARRIVED, WIRE, LOST = 'arrived', 'wire', 'lost'  # beside `waits` and `held`, the ends of a packet
STATES = (ARRIVED, WAITS, HELD, WIRE, LOST)
STEP = re.compile(r'(\d{1,15}) (\d{1,15}) (-|[a-z]\w*) ([a-z]\w*) (\d{1,15})( back)? (?:(waits|held|arrives|ends)|(goes) (\S+))', re.A)
END = re.compile(r'(arrived|waits|held|wire|lost) (\w+)', re.A)
PACKET = re.compile(rf'packet (\d{{1,15}}) (\d{{1,15}}) ([a-z]\w*) ({END.pattern})(?: back ({END.pattern}))?', re.A)
TOTAL = re.compile(r'total packets \d{1,15}(?: (?:arrived|waits|held|wire|lost) \d{1,15}){5}|wire full', re.A)
NUMBER = re.compile(r'#(\d+)=')


@dataclass(frozen=True)
class Load:
    """What is carried: a packet by its number, or the answer to it."""
    packet: int
    is_back: bool = False

    def __str__(self) -> str:
        return f'{self.packet} back' if self.is_back else str(self.packet)


@dataclass(frozen=True)
class Step:
    """What a record did to a load: where it `goes` the mark that carries it, or that wasn't sent."""
    record: int
    moment: int
    node: str
    fate: str
    load: Load
    word: str
    mark: str = ''

    @property
    def entry(self) -> int | None:
        """The number of the entry that carries the load from here."""
        number = NUMBER.match(self.mark)
        return int(number[1]) if number else None

    def __str__(self) -> str:
        return ' '.join([str(self.record), str(self.moment), self.node, self.fate, str(self.load), self.word, *([self.mark] if self.mark else [])])


@dataclass(frozen=True)
class End:
    """Where a load is in the end: the record that it arrived at or was lost at, the node that it waits or is held at, the entry that
    carries it."""
    state: str
    number: int = 0
    node: str = ''

    def __str__(self) -> str:
        return f'{self.state} {self.node or self.number}'


@dataclass(frozen=True)
class Packet:
    """A packet that a host handed in: its number, the record, the host, and its end, and that of the answer to it."""
    number: int
    record: int
    node: str
    end: End
    back: End | None = None

    def __str__(self) -> str:
        return f'packet {self.number} {self.record} {self.node} {self.end}' + (f' back {self.back}' if self.back else '')


@dataclass
class Followed:
    """The lines of `follow`. Where the wire is full there are no ends."""
    steps: list[Step] = field(default_factory=list)
    packets: list[Packet] = field(default_factory=list)
    totals: str = ''

    def __post_init__(self) -> None:
        self.of_record: dict[int, list[Step]] = {}
        self.of_load: dict[Load, list[Step]] = {}
        self.carried: dict[int, Load] = {}  # by an entry
        for step in self.steps:
            self.of_record.setdefault(step.record, []).append(step)
            self.of_load.setdefault(step.load, []).append(step)
            if step.entry is not None:
                self.carried[step.entry] = step.load
        self.by_record = {packet.record: packet for packet in self.packets}

    def lines(self) -> list[str]:
        return [*map(str, self.steps), *map(str, self.packets), self.totals]

    def marks_of(self, record: int) -> set[str]:
        """The marks of a record that carry something, or would have."""
        return {step.mark for step in self.of_record.get(record, []) if step.mark}

    def steps_of(self, load: Load) -> list[Step]:
        return self.of_load.get(load, [])

    def last(self, load: Load, word: str) -> Step | None:
        """The last step of a load with a word."""
        return next((step for step in reversed(self.steps_of(load)) if step.word == word), None)


def followed_of(text: str) -> Followed:
    """What `follow` answered, read."""
    steps, packets, totals = list[Step](), list[Packet](), ''
    for number, line in enumerate(text.splitlines(), 1):
        step, packet = None if packets else STEP.fullmatch(line), PACKET.fullmatch(line)
        if totals or not (step or packet or TOTAL.fullmatch(line)):
            raise Refusal(f'line {number}: this is no line of `follow`: {line[:60]}')
        if step:
            steps.append(step_of(step))
        elif packet:
            packets.append(Packet(int(packet[1]), int(packet[2]), packet[3], end_of(packet[4]), end_of(packet[7]) if packet[7] else None))
        else:
            totals = line
    if not totals:
        raise Refusal('this is no whole answer of `follow`: its last line has no totals')
    return Followed(steps, packets, totals)


def step_of(found: re.Match[str]) -> Step:
    record, moment, node, fate, packet, back, word, goes, mark = found.groups()
    return Step(int(record), int(moment), node, fate, Load(int(packet), bool(back)), word or goes, mark or '')


def end_of(text: str) -> End:
    state, _, where = text.partition(' ')
    return End(state, node=where) if state in (WAITS, HELD) else End(state, int(where))
