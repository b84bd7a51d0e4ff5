"""Plays a situation with real clients: what each step is, and whether the last packet arrives."""
import os
import re
import sys
import time

import rows
from situations import BEGIN_SECONDS, NATIVE, WARM_SECONDS

HERE = os.path.dirname(os.path.abspath(__file__))
MARK = os.path.join(HERE, 'mark.py')
TEREDO_ADDRESS = re.compile(r'inet6 (2001:0?:[0-9a-f:]+)/')
NO_ADDRESS = 'no address'


class Real:
    """The steps of a situation in its networks."""

    def __init__(self, network):
        self.network, self.situation = network, network.situation
        self.nodes = {name: 'native' if host == NATIVE else name for name, host in (('a', self.situation.a), ('b', self.situation.b))}
        self.addresses, self.begun, self.sent = {}, 0, 0

    def address_of(self, name):
        if self.nodes[name] == 'native':
            return rows.NATIVE_ADDRESS
        found = TEREDO_ADDRESS.search(self.network.said(name, 'ip', '-6', '-o', 'addr', 'show', 'scope', 'global'))
        return found[1] if found else None

    def qualify(self):
        """Starts the clients; whether both have an address."""
        for name in self.nodes:
            if self.nodes[name] == name:
                self.network.start(name, self.network.client, HOST=name, PORT=rows.PORTS[name])
        return rows.until(lambda: all(self.address_of(name) for name in self.nodes), rows.QUALIFY_SECONDS)

    def play(self):
        """Whether a packet from a to b arrives at last; NO_ADDRESS where one of them has none."""
        if not self.qualify():
            return NO_ADDRESS
        self.begun = time.monotonic()
        self.addresses = {name: self.address_of(name) for name in self.nodes}
        self.network.start(self.nodes['b'], f'exec {sys.executable} -B {MARK} --watch >$FOLDER/seen')
        self.until(BEGIN_SECONDS)
        for what, *more in self.situation.steps():
            getattr(self, what)(*more)
        time.sleep(rows.AWAY)
        return self.arrives('a', 'b', rows.LAST_SECONDS)

    def packet(self, source, destination, seconds):
        """Sends a packet, and waits for its answer for so long at most; what it is marked with."""
        self.sent += 1
        mark, own = f'{source}{destination}{self.sent}', rows.NATIVE_ADDRESS if self.nodes[source] == 'native' else '::'
        self.network.said(self.nodes[source], sys.executable, '-B', MARK, '--send', mark, own, self.addresses[destination], str(seconds))
        return mark

    def arrives(self, source, destination, seconds):
        mark = self.packet(source, destination, seconds)
        with open(os.path.join(self.network.folder, 'seen'), encoding='ascii') as file:
            return mark in file.read().split()

    def until(self, moment):
        time.sleep(max(0, self.begun + float(moment) - time.monotonic()))

    def wait(self, seconds):
        time.sleep(float(seconds))

    def warm(self):
        last = time.monotonic() - self.begun + WARM_SECONDS
        self.packet('a', 'b', WARM_SECONDS)
        self.until(last)

    def restart(self, name):
        for node in self.network.nats[name]:
            self.network.said(node, 'conntrack', '-F')
            for what in (('map', 'inside'), ('set', 'addresses')):
                self.network.said(node, 'nft', 'flush', what[0], 'ip', 'teredo', what[1])

    def lose(self, count, seconds):
        rule = ('ether', 'type', 'ip', 'ip', 'daddr', rows.HOSTS['b'], 'drop')
        for words in (('add', 'table', 'bridge', 'teredo'), ('add', 'chain', 'bridge', 'teredo', 'lost', '{ type filter hook forward priority 0; }'),
                      ('add', 'rule', 'bridge', 'teredo', 'lost', *rule)):
            self.network.do('core', 'nft', *words)
        last = time.monotonic() - self.begun
        for number in range(1, int(count) + 1):
            self.packet('a', 'b', seconds)
            self.until(last + number * int(seconds))
        self.network.do('core', 'nft', 'delete', 'table', 'bridge', 'teredo')


def played(situation, number, program, client=None):
    """Whether the last packet of a situation arrived, with real clients."""
    with rows.Rows(situation, number, program, client) as network:
        return Real(network).play()
