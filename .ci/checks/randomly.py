"""Scenarios drawn from a seed: those of `generated`, and others, of few hosts that get their addresses first, with and without a chain.

Each has what `lab`, or with its chain `nested`, plays.
"""
import random

import generated
from scenario import QUALIFY_MS, Scenario

KINDS, WEIGHTS = ('cone', 'restricted', 'port', 'symmetric'), (3, 3, 3, 1)
IDLES = (2_000, 30_000, 60_000, 400_000)  # ms
WAITS = (0, 0, 10, 1_999, 2_000, 4_000, 12_000, 30_000, 60_000, 240_000, 300_000)  # ms that pass at once
EVENTS, GENERATED = (5, 40), (20, 150)  # from, to
NEXTS = 8  # for each client, where there is no `settle`
ENTRIES = 60  # numbers of entries that are delivered, or copied
SLOW = 1_000_000  # ms between two questions, so that few come to more than the packets
REFRESHES = (None, (5_000, 9_000), (22_500, 30_000), (SLOW, SLOW))


def scenario(seed):
    """The text of a scenario, whose first line has its chain, where it has one."""
    drawn = random.Random(seed)
    if seed % 6 == 0:
        return generated.scenario(seed, drawn.randint(*GENERATED))
    return Drawn(drawn, seed, has_chain=seed % 2 == 1).lab.text()


class Drawn:
    """A scenario of few nodes."""

    def __init__(self, drawn, seed, has_chain):
        self.drawn, self.has_chain, self.lab = drawn, has_chain, Scenario(seed)
        for number in range(drawn.randint(1, 2)):
            self.lab.server(f's{number + 1}')
        nats = [self.lab.nat(f'n{number + 1}', drawn.choices(KINDS, WEIGHTS)[0], drawn.choice(IDLES)) for number in range(drawn.randint(2, 4))]
        if has_chain:
            self.lab.chain = self.chain(nats)
        count, has_own = drawn.randint(2, len(nats)), drawn.random() < 0.7  # clients, and whether each has a NAT of its own
        self.clients = {name: nat if has_own else drawn.choice(nats) for name, nat in zip('abcd'[:count], drawn.sample(nats, count))}
        for name, nat in self.clients.items():
            self.lab.client(name, nat, f's{drawn.randint(1, len(self.lab.lists["server"]))}', drawn.choice(REFRESHES))
        if not has_chain and drawn.random() < 0.7:
            self.lab.relay('r1')
            self.lab.native('h1')
            self.lab.native('h2')
        self.hosts = [*self.clients, *(node['name'] for node in self.lab.lists['native'])]
        self.nodes = [*nats, *self.clients, *(node['name'] for node in self.lab.lists['relay'])]
        if drawn.random() < 0.9:
            for ms in QUALIFY_MS:
                self.lab.event(f'advance {ms}')
                self.settle()
        for _ in range(drawn.randint(*EVENTS)):
            self.event()

    def chain(self, nats):
        """Each NAT but the last one maybe behind a later one, three of them one behind the other at most."""
        outer = {}
        for at, nat in reversed([*enumerate(nats[:-1])]):
            behind = [one for one in nats[at + 1:] if one not in outer or outer[one] not in outer]
            if behind and self.drawn.random() < 0.6:
                outer[nat] = self.drawn.choice(behind)
        return ','.join(f'{one}:{outer[one]}' for one in nats if one in outer) or '-'

    def settle(self):
        self.lab.event(*(['next'] * NEXTS * len(self.clients) if self.has_chain else ['settle']))

    def event(self):
        drawn, (one, other) = self.drawn, self.drawn.sample(self.hosts, 2)
        entry, source = drawn.randrange(ENTRIES), f'203.0.113.{drawn.choice((5, 9))}:{drawn.choice((9, 3545))}'
        target = f'198.51.100.{drawn.randint(1, len(self.lab.lists["nat"]))}:1024'
        kinds = {'host': 30, 'advance': 12, 'next': 25, 'deliver': 8, 'restart': 3, 'echo': 8, 'copy': 3, 'raw': 1}
        kinds |= {} if self.has_chain else {'settle': 12, 'forget': 2, 'fault': 2}
        texts = {'host': f'host {one} {other} {drawn.randrange(1 << 32):08x}', 'echo': f'echo {one} {other} {drawn.randrange(9)}',
                 'advance': f'advance {drawn.choice(WAITS)}', 'next': 'next', 'deliver': f'deliver {entry}', 'restart': f'restart {drawn.choice(self.nodes)}',
                 'copy': f'copy {entry} {source} {target}', 'raw': f'raw {one} 6000', 'settle': 'settle', 'fault': f'fault {drawn.randrange(3)}',
                 'forget': 'forget {1} {0}'.format(*drawn.choice(list(self.clients.items())))}
        kind = drawn.choices(list(kinds), list(kinds.values()))[0]
        self.lab.event(texts[kind])
        if kind in ('host', 'echo') and drawn.random() < 0.5:
            self.settle()
