"""What the program says of a scenario, asked once a view: its report, what each node keeps, and where each packet went.

Who has a report alone knows neither of the last two; so does who has a program that answers neither `state` nor `follow`.
"""
from __future__ import annotations

import functools
import tempfile
from collections.abc import Sequence
from typing import Protocol

import chains
import command
import toml_places
import topology
from followed import Followed, followed_of
from kept import Client, Kept, Peer, Void
from player import STDIN, Stored, Trial
from report import HANDED_IN, Entry, Record, Report
from topology import Topology

UNBUILT = 'the program is not built, so of the examples alone it is told where packets went and what nodes keep: ./teredo build builds it, once'
PLAYED = (0, 8)  # statuses of a scenario that was played: to its end, or until the wire was full


class Teller(Protocol):
    """Who answers words of the program; a text stands for STDIN in them. `unknown` has the commands that it doesn't know."""
    unknown: set[str]

    def answer(self, words: Sequence[str], text: str) -> tuple[int, str]: ...


class Program:
    """The built program, asked by a tool."""

    def __init__(self, program: str) -> None:
        self.program, self.unknown = program, set[str]()

    def answer(self, words: Sequence[str], text: str) -> tuple[int, str]:
        with tempfile.NamedTemporaryFile('w', suffix='.toml', encoding='utf-8') as file:
            file.write(text)
            file.flush()
            status, written = command.call(self.program, *(file.name if word == STDIN else word for word in words))
        return status, written.decode('utf-8', 'replace')


@functools.lru_cache(maxsize=8)
def teller_of(program: str) -> Teller:
    """Who answers a tool: the program; where none is named and none is built, what is stored of the examples, and for each other
    scenario a trial of the sources."""
    try:
        return Program(command.built(program, is_quiet=True))
    except command.Refusal as fault:
        if fault.status != command.NOT_BUILT:
            raise
        return Trial()


class Told:
    """What is told of a scenario, each part asked for when it is first wanted."""

    def __init__(self, teller: Teller | None, text: str | None, chain: str | None = None, report: str | None = None, path: str = 'scenario') -> None:
        self.teller, self.text, self.given, self.path = teller, text, report, path
        self.chain = chains.chain_of(text) if chain is None and text is not None else chain

    def ask(self, *words: str) -> tuple[int, str] | None:
        """What is answered, or None where the command isn't known."""
        if self.teller is None or self.text is None or words[0] in self.teller.unknown:
            return None
        status, written = self.teller.answer(words, self.text)
        if status == command.WRONG_WORDS:
            self.teller.unknown.add(words[0])
            return None
        return status, written

    @functools.cached_property
    def played(self) -> tuple[int, str]:
        """The status of the play, and what was written."""
        if self.given is not None:
            return 0, self.given
        found = self.ask('lab', STDIN) if self.chain is None else self.ask('nested', STDIN, self.chain)
        if found is None:
            raise command.Refusal('this program plays no scenario')
        return found

    @property
    def status(self) -> int:
        return self.played[0]

    def must_play(self) -> None:
        """Ends with the program's own line where the scenario wasn't played."""
        if self.status not in PLAYED:
            raise command.Refusal(f'{self.path}: {command.said(*self.played)}')

    @functools.cached_property
    def report(self) -> Report:
        return Report(self.played[1])

    @property
    def untold(self) -> str | None:
        """Why it isn't told where packets went, or what nodes keep, and what to do; None where it is."""
        if self.text is None:
            return 'a report alone does not say where packets went: trace its scenario'
        missing = [word for word, told in (('follow', self.followed), ('state', self.kept)) if told is None]
        if missing and isinstance(self.teller, Stored):
            return UNBUILT
        return f'this program does not say where packets went, or what nodes keep: it doesn\'t answer `{"` or `".join(missing)}`' if missing else None

    @functools.cached_property
    def kept(self) -> Kept | None:
        found = self.ask('state', STDIN, self.chain or '-', 'each')
        made = Kept(found[1]) if found and found[0] in PLAYED else None
        if made is not None:
            self.name(made)
        return made

    @functools.cached_property
    def followed(self) -> Followed | None:
        found = self.ask('follow', STDIN, self.chain or '-')
        return followed_of(found[1]) if found and found[0] in PLAYED else None

    def name(self, kept: Kept) -> None:
        """Tells the report what the entries have in them by which a node let go what waited: at a record packets wait for a peer, one more
        than before, and at another one none waits any more, and the first sends are those."""
        waits = dict[tuple[str, str], list[Record]]()
        for line in kept.lines:
            if isinstance(line.what, Void):
                for key in [key for key in waits if key[0] == line.node and line.what.inside is None]:
                    del waits[key]
            if not isinstance(line.what, Peer) or line.record < 0 or line.record >= len(self.report.records):
                continue
            here, record = waits.setdefault((line.node, line.what.address), []), self.report.records[line.record]
            if line.what.waits > len(here):
                here.append(record)
            elif line.what.waits < len(here):
                for since, mark in zip(here, record.marks):
                    if isinstance(mark, Entry):
                        self.report.contents[mark.number] = self.content(since)
                here.clear()

    def content(self, record: Record) -> str:
        """What a packet is that waits since a record."""
        entry = self.report.entry_of(record)
        return self.report.content(entry) if entry else 'echo request' if record.act == 'echo' else 'packet'

    @functools.cached_property
    def handed_in(self) -> list[Record]:
        """The records by which a host handed in a packet, in the order of their numbers."""
        return [record for record in self.report.records if record.act in HANDED_IN]

    @functools.cached_property
    def events(self) -> list[str]:
        return [] if self.text is None else toml_places.scenario_events(self.path, self.text)

    @functools.cached_property
    def known(self) -> Topology:
        return topology.guessed(self.report) if self.text is None else topology.topology_of(self.text, self.chain)

    def event(self, record: Record) -> list[str]:
        """The words of the event of a record, where the scenario is at hand."""
        return self.events[record.event].split(' ') if record.event < len(self.events) else []

    def target(self, record: Record) -> str | None:
        """The name or address that the event of a host's packet is for."""
        words = self.event(record)
        return words[2] if record.act in ('host', 'echo') and len(words) > 2 else None

    # Names and addresses.

    @functools.cached_property
    def fixed(self) -> dict[str, str]:
        """The address of each relay and native host, by its name."""
        return {name: table['six'] for name, table in self.known.tables.items() if isinstance(table.get('six'), str)}

    def address_of(self, name: str, count: int) -> str | None:
        """The IPv6 address of a node behind so many lines of `state`."""
        return self.fixed.get(name) or (self.kept.address(name, count) if self.kept else None)

    def name_of(self, address: str, count: int) -> str:
        """Whose an address is behind so many lines of `state`: a name, or the address where it is nobody's."""
        nodes = self.kept.nodes if self.kept else {}
        return next((name for name in (*self.fixed, *nodes) if self.address_of(name, count) == address), address)

    def first_count(self, record: Record) -> int:
        return self.kept.before(record.index) if self.kept else 0


def alone(text: str) -> Told:
    """What a report tells by itself."""
    return Told(None, None, report=text)


def phase_of(told: Told, client: str) -> Client | None:
    """Where a client is in the end."""
    own = told.kept.own(client, len(told.kept.lines)) if told.kept else None
    return own if isinstance(own, Client) else None
