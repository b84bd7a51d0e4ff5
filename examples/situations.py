"""Situations of two hosts, each told once and played twice: by two real clients, and in the laboratory, where `reach` says
whether the next packet from the first host to the second one would arrive.

A host is named by what it stands behind: `none`, NATs from the inner one outward as `port:cone`, or `native`, which is no
client. A state is a row of steps, in seconds since both hosts had their addresses:

  warm        a packet from a to b, and its answer, within WARM_SECONDS
  wait S      nothing for so long
  until S     nothing until then
  restart X   the NATs of a or b lose all that they hold
  lose N S    N packets from a to b, each S seconds long after the one before, while everything that goes to b is lost
"""
import os
import sys
import tempfile
from dataclasses import dataclass

HERE = os.path.dirname(os.path.abspath(__file__))
sys.path.insert(0, os.path.join(HERE, '..', 'tools'))

import command
from scenario import Scenario

IDLE_SECONDS = 60  # that a NAT keeps what it holds, without a datagram from inside
REFRESH_MS = (30000, 30000)  # miredo's
BEGIN_SECONDS, WARM_SECONDS = 2, 4
TRY_MS = 2000  # between tries: docs/RULES.md
NATIVE = 'native'
STATES = {
    'fresh': (),
    'second': ('warm',),
    'idle35': ('warm', 'wait 35'),
    'idle70': ('warm', 'wait 70'),
    'restart-a': ('warm', 'restart a'),
    'restart-b': ('warm', 'restart b'),
    'restart-b-35': ('warm', 'restart b', 'wait 35'),
    'stale': ('until 24', 'warm', 'restart b', 'until 33'),
    'lost': ('lose 1 8',),
    'lost-often': ('lose 5 3',),
}
KINDS = ('none', 'cone', 'restricted', 'port', 'symmetric')
SHUT, WITHIN, UNSAID = 'shut', 'within', 'unsaid'
CLASSES = {'within': WITHIN, 'comes': WITHIN, 'lost': UNSAID, 'known': UNSAID, 'either': UNSAID}


@dataclass(frozen=True)
class Situation:
    a: str
    b: str
    state: str = 'fresh'
    carrier: str = ''  # a NAT that both are behind

    def __str__(self):
        return f'{self.a} {self.b} {self.state}' + (f' {self.carrier}' if self.carrier else '')

    def steps(self):
        return [step.split() for step in STATES[self.state]]

    def has_native(self):
        return NATIVE in (self.a, self.b)


def way_of(host):
    """The kinds of the NATs that a host is behind, the inner one first."""
    return [] if host in ('none', NATIVE) else host.split(':')


def situation_of(words):
    """A situation by its words, as `port:cone native idle35` or `port port fresh cone`; a ValueError where it is none."""
    if len(words) < 2:
        raise ValueError(f'{" ".join(words)}: a situation is A B STATE, or A B STATE CARRIER')
    host_a, host_b, state, *carrier = words + ['fresh'] * (len(words) == 2)
    kinds = [kind for host in (host_a, host_b) for kind in way_of(host)] + carrier
    if len(carrier) > 1 or state not in STATES or not set(kinds) <= set(KINDS[1:]) or host_a == host_b == NATIVE:
        raise ValueError(f'{" ".join(words)}: hosts are none, native or rows of {", ".join(KINDS[1:])}; states {", ".join(STATES)}')
    return Situation(host_a, host_b, state, *carrier)


def usual():
    """The situations that are played where none is named: each two kinds, rows of NATs, each state, and a native host."""
    fresh = [Situation(a, b) for a in KINDS for b in KINDS]
    rows = [Situation(*hosts) for hosts in (('port:port', 'port'), ('port', 'port:port'), ('cone:port', 'restricted'), ('port', 'port:cone'),
                                            ('symmetric:port', 'port'), ('cone:symmetric', 'cone'), ('port:port', 'restricted:cone'))]
    carried = [Situation('port', 'port', 'fresh', carrier) for carrier in ('port', 'cone')] + [Situation('none', 'none', 'fresh', 'port')]
    states = [Situation(*hosts, state) for hosts in (('port', 'port'), ('cone', 'port'), ('port', 'cone'), ('port:port', 'restricted'))
              for state in STATES if state != 'fresh']
    native = [Situation(*hosts, state) for kind in ('cone', 'port', 'port:port', 'symmetric') for hosts in ((kind, NATIVE), (NATIVE, kind))
              for state in ('fresh', 'second', 'idle35', 'idle70', 'restart-a' if hosts[1] == NATIVE else 'restart-b')]
    return fresh + rows + carried + states + native


class Laboratory:
    """A situation as a scenario."""

    def __init__(self, situation):
        self.situation, self.now, self.lab, self.nats = situation, 0, Scenario(), {}
        self.lab.server('s1')
        if situation.has_native():
            self.lab.relay('r1')
        hosts = {'a': situation.a, 'b': situation.b}
        for name, host in hosts.items():  # a host without a NAT is reached by everybody
            kinds = way_of(host) or ['cone'] * (host != NATIVE and not situation.carrier)
            self.nats[name] = [self.nat(kind) for kind in kinds]
        carrier = [self.nat(situation.carrier)] if situation.carrier else []
        for name, host in hosts.items():
            self.host(name, host, self.nats[name] + carrier)
        self.play()

    def nat(self, kind):
        return self.lab.nat(f'n{self.lab.next_number("nat")}', kind, IDLE_SECONDS * 1000)

    def host(self, name, host, row):
        if host == NATIVE:
            self.lab.native(name)
            return
        pairs = [f'{inner}:{outer}' for inner, outer in zip(row, row[1:])]
        self.lab.chain = ','.join(([self.lab.chain] if self.lab.chain else []) + pairs) or None
        self.lab.client(name, row[0], refresh=REFRESH_MS, cone_try=False)

    def play(self):
        for _ in range(2):
            self.lab.event('advance 0')
            self.lab.settle()
        self.until(BEGIN_SECONDS * 1000)
        for what, *more in self.situation.steps():
            getattr(self, what)(*more)

    def until(self, moment):
        """Time in steps of a second at most, in each of which all is delivered."""
        moment = int(moment) * 1000 if isinstance(moment, str) else moment
        while self.now < moment:
            step = min(1000, moment - self.now)
            self.lab.event(f'advance {step}')
            self.lab.settle()
            self.now += step

    def wait(self, seconds):
        self.until(self.now + int(seconds) * 1000)

    def warm(self):
        for pair in ('a b', 'b a'):
            self.lab.event(f'host {pair} 00')
            self.lab.settle()
        self.until(self.now + WARM_SECONDS * 1000)

    def restart(self, name):
        self.lab.event(*(f'restart {nat}' for nat in self.nats.get(name, [])))

    def lose(self, count, seconds):
        """What isn't delivered is lost."""
        for _ in range(int(count)):
            self.lab.event('host a b 00')
            for begun in range(0, int(seconds) * 1000, TRY_MS):
                self.lab.event(f'advance {min(TRY_MS, int(seconds) * 1000 - begun)}')
            self.now += int(seconds) * 1000

    def word(self, program):
        """What `reach` says of the next packet from a to b."""
        with tempfile.NamedTemporaryFile('w', suffix='.toml') as file:
            file.write(self.lab.text())
            file.flush()
            status, told = command.call(program, 'reach', file.name, self.lab.chain or '-')
        if status:
            raise command.Refusal(f'{self.situation}: reach ended with status {status}: {told.decode()[:200]}')
        return next(line for line in told.decode().splitlines() if line.startswith('a b '))[4:]


def class_of(word):
    return CLASSES.get(word.split()[0], SHUT)


def verdict(word, has_arrived):
    """Whether a real packet did what the word says."""
    said = class_of(word)
    return 'unsaid' if said == UNSAID else 'agrees' if has_arrived == (said == WITHIN) else 'DIFFERS'
