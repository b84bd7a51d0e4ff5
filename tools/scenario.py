"""A scenario, written in Python: nodes with the addresses that these pages use, and events one a line.

    from scenario import Scenario

    lab = Scenario()
    lab.server('s1')
    lab.client('a', lab.nat('n1', 'cone'))
    lab.client('b', lab.nat('n2', 'port'))
    lab.qualify()
    lab.event('host a b 00', 'settle')
    print(lab.text(), end='')

`PYTHONPATH=tools python3 -B OWN.py >OWN.toml` runs that at the top of the repository, wherever OWN.py lies. Every text that
comes of it is one that docs/SCENARIOS.md allows, where the names and the events are.
"""

from collections.abc import Iterable
from typing import Union

Value = Union[str, int, bool, list[int]]  # at a key of a node

# How long each client needs until it has an answer to wait for: no time, twice where it doesn't try the cone phase; else,
# behind a NAT that isn't cone, as long as three questions take, and then none.
QUALIFY_MS = (0, 0, 12000, 0)
IDLE_MS = 60_000
NEXTS = 12  # that deliver all there is while two clients qualify: three questions of each, and their answers


class Scenario:
    """The nodes and the events of a scenario; each kind of node is numbered from 1, and has the addresses of its number.

    With a chain of NATs the text says so, and the tools play it by `nested`.
    """

    def __init__(self, seed: int = 1, chain: str | None = None) -> None:
        self.seed, self.chain, self.events = seed, chain, list[str]()
        self.lists: dict[str, list[dict[str, Value]]] = {'server': [], 'nat': [], 'client': [], 'relay': [], 'native': []}

    def add(self, table: str, name: str, **keys: Value) -> str:
        """A node with the keys that are given, whatever they are."""
        self.lists[table].append({'name': name, **keys})
        return name

    def next_number(self, kind: str) -> int:
        return len(self.lists[kind]) + 1

    def latest(self, kind: str) -> str:
        return str(self.lists[kind][-1]['name'])

    def server(self, name: str) -> str:
        """192.0.2.1 and .2, then .3 and .4, and so on."""
        number = self.next_number('server')
        return self.add('server', name, primary=f'192.0.2.{2 * number - 1}', secondary=f'192.0.2.{2 * number}')

    def nat(self, name: str, kind: str, idle: int = IDLE_MS) -> str:
        """198.51.100.1, and so on."""
        return self.add('nat', name, kind=kind, external=f'198.51.100.{self.next_number("nat")}', idle=idle)

    def way(self, *kinds: str) -> str:
        """NATs one behind the other, n1 and so on, the inner one first, and their part of the chain; answers the inner one."""
        first = self.next_number('nat')
        names = [self.nat(f'n{number}', kind) for number, kind in enumerate(kinds, first)]
        pairs = [f'{inner}:{outer}' for inner, outer in zip(names, names[1:])]
        self.chain = ','.join(([self.chain] if self.chain else []) + pairs) or None
        return names[0]

    def client(self, name: str, nat: str, server: str | None = None, refresh: Iterable[int] | None = None, **more: Value) -> str:
        """Inside 10.0.0.2:4000, and so on; of the latest server where none is named. Any other keys go as they are."""
        inside = f'10.0.0.{self.next_number("client") + 1}:4000'
        keys = {'nat': nat, 'inside': inside, 'server': server or self.latest('server')}
        return self.add('client', name, **keys, **({'refresh': list(refresh)} if refresh else {}), **more)

    def relay(self, name: str) -> str:
        """203.0.113.9:3545 and 2001:db8:9::1, and so on."""
        number = self.next_number('relay')
        return self.add('relay', name, at=f'203.0.113.{number + 8}:3545', six=f'2001:db8:9::{number}')

    def native(self, name: str, relay: str | None = None) -> str:
        """2001:db8::1, and so on; behind the latest relay where none is named."""
        return self.add('native', name, six=f'2001:db8::{self.next_number("native"):x}', relay=relay or self.latest('relay'))

    def event(self, *texts: str) -> None:
        self.events += texts

    def settle(self) -> None:
        """Delivers all there is; with a chain, which has no `settle`, by as many `next` as two clients may need."""
        self.event(*(['settle'] if self.chain is None else ['next'] * NEXTS))

    def qualify(self) -> None:
        """Lets every client that can have an address get it."""
        for ms in QUALIFY_MS:
            self.event(f'advance {ms}')
            self.settle()

    def text(self) -> str:
        lines = [] if self.chain is None else [f'# chain: {self.chain}']
        lines += [f'seed = {self.seed}', 'events = ['] + [f'  "{event}",' for event in self.events] + [']']
        for kind, nodes in self.lists.items():
            for node in nodes:
                lines += ['', f'[[{kind}]]'] + [f'{key} = {quoted(value)}' for key, value in node.items()]
        return '\n'.join(lines) + '\n'


def quoted(value: Value) -> str:
    return f'"{value}"' if isinstance(value, str) else str(value).lower()
