"""Kinds of NAT that Linux makes, each between a client's network and a server's (`ip netns`, veth pairs, `nft`).

It wants Linux, root, and the commands `ip` (iproute2) and `nft` (nftables).
"""
import os
import shutil
import signal
import subprocess
from dataclasses import dataclass

PRIMARY, SECONDARY, GATEWAY = '192.0.2.1', '192.0.2.2', '192.0.2.254'
OUTSIDE, ROUTED, PRIVATE = '198.51.100.1', '198.51.100.7', '10.0.0.2'
LIMIT = 60  # seconds that a command of the system's, or a program that ends by itself, has to end
SOON = 2  # seconds that a program has to end once it was asked to
DEVICE = 'wire'  # of the client's network, and of the server's

OUT = f'chain out {{ type nat hook postrouting priority srcnat; oifname "outside" snat to {OUTSIDE}; }}'
RANDOM = 'chain out { type nat hook postrouting priority srcnat; oifname "outside" masquerade random; }'
# What comes in for nobody is dropped before the system remembers it. Without this the client's own question to where it
# came from gets another port.
SHUT = 'chain shut { type filter hook input priority filter; iifname "outside" drop; }'
REDIRECT = (f'chain in {{ type nat hook prerouting priority dstnat; '
            f'iifname "outside" ip daddr {OUTSIDE} udp dport 1024-65535 dnat to {PRIVATE}; }}')
SENT_TO = 'set sent { type inet_service . ipv4_addr; flags dynamic,timeout; timeout 60s; }'
NOTED = 'chain note { type filter hook forward priority filter; iifname "inside" update @sent { udp sport . ip daddr }; }'
LET_IN = (f'chain in {{ type nat hook prerouting priority dstnat; '
          f'iifname "outside" udp dport . ip saddr @sent dnat to {PRIVATE}; }}')


@dataclass
class Kind:
    """A kind of NAT, made by rules of nft; how many questions its clients ask, and what they find out."""
    name: str
    rules: tuple
    sent: int
    found: str  # `qualified`, with the cone bit or without, or `symmetric`
    inside: str = PRIVATE
    mapped: str = OUTSIDE


KINDS = (
    Kind('none', (), 1, 'cone', inside=ROUTED, mapped=ROUTED),
    Kind('cone', (OUT, REDIRECT, SHUT), 1, 'cone'),
    Kind('restricted', (SENT_TO, NOTED, OUT, LET_IN, SHUT), 5, 'restricted'),
    Kind('port', (OUT, SHUT), 5, 'restricted'),
    Kind('symmetric', (RANDOM, SHUT), 5, 'symmetric'),
    Kind('port-unshut', (OUT,), 5, 'symmetric'))


class Refused(Exception):
    pass


def rules_of(kind):
    return 'table ip teredo {\n' + ''.join(f'  {rule}\n' for rule in kind.rules) + '}\n'


def missing():
    """What this machine lacks to make networks, or nothing."""
    lacking = [word for word in ('ip', 'nft') if not shutil.which(word)]
    return f'no command {lacking[0]}' if lacking else 'wants root' if os.geteuid() else ''


def do(*words, text=None):
    """Runs a command of the system's, or says which one was refused and why."""
    try:
        done = subprocess.run(words, input=text, stdout=subprocess.PIPE, stderr=subprocess.STDOUT, text=True, timeout=LIMIT)
    except OSError as error:
        raise Refused(f'{" ".join(words)}: {error}') from error
    if done.returncode:
        raise Refused(f'{" ".join(words)}: status {done.returncode}: {done.stdout.strip()}' + (f'\n{text}' if text else ''))


def stop(program):
    """Ends a program and all that it started, and gives what it wrote."""
    for how in (signal.SIGTERM, signal.SIGKILL):
        try:
            os.killpg(program.pid, how)
            return program.communicate(timeout=SOON)[0].strip()
        except ProcessLookupError:
            return program.communicate()[0].strip()
        except subprocess.TimeoutExpired:
            pass
    return ''


def end(program, limit=LIMIT):
    """What a program wrote that ends by itself."""
    try:
        return program.communicate(timeout=limit)[0].strip()
    except subprocess.TimeoutExpired:
        stop(program)
        return f'no end within {limit} s'


def said_until(name, program, seconds=SOON):
    """Ends a program where it doesn't end by itself within so many seconds; how it ended, and its last line."""
    try:
        said = program.communicate(timeout=seconds)[0].strip()
        ended = f'ended with status {program.returncode}'
    except subprocess.TimeoutExpired:
        said, ended = stop(program), 'ran until it was ended'
    return f'{name} {ended}, and said {said.splitlines()[-1] if said else "nothing"}'


class Network:
    """The networks of a kind: the client's, the NAT's and the server's. Each name has the number of this process."""

    def __init__(self, kind):
        self.kind = kind
        self.client, self.nat, self.server = (f'teredo-{os.getpid()}-{kind.name}-{who}' for who in ('client', 'nat', 'server'))

    def __enter__(self):
        try:
            self.make()
        except Refused:
            self.remove()
            raise
        return self

    def __exit__(self, *_):
        self.remove()

    def ip(self, at, *words):
        do('ip', '-n', at, *words)

    def make(self):
        for name in (self.client, self.nat, self.server):
            do('ip', 'netns', 'add', name)
            self.ip(name, 'link', 'set', 'lo', 'up')
        self.ip(self.nat, 'link', 'add', 'outside', 'type', 'veth', 'peer', 'name', DEVICE, 'netns', self.server)
        self.ip(self.nat, 'link', 'add', 'inside', 'type', 'veth', 'peer', 'name', DEVICE, 'netns', self.client)
        for ip in (PRIMARY, SECONDARY):
            self.ip(self.server, 'addr', 'add', f'{ip}/24', 'dev', DEVICE)
        self.ip(self.nat, 'addr', 'add', f'{GATEWAY}/24', 'dev', 'outside')
        gateway = self.kind.inside.rpartition('.')[0] + '.254'
        self.ip(self.nat, 'addr', 'add', f'{gateway}/24', 'dev', 'inside')
        if self.kind.rules:
            self.ip(self.nat, 'addr', 'add', f'{OUTSIDE}/32', 'dev', 'outside')
        self.ip(self.client, 'addr', 'add', f'{self.kind.inside}/24', 'dev', DEVICE)
        for name, device in ((self.nat, 'outside'), (self.nat, 'inside'), (self.client, DEVICE), (self.server, DEVICE)):
            self.ip(name, 'link', 'set', device, 'up')
        self.ip(self.client, 'route', 'add', 'default', 'via', gateway)
        self.ip(self.server, 'route', 'add', 'default', 'via', GATEWAY)
        do('ip', 'netns', 'exec', self.nat, 'sh', '-c', 'echo 1 >/proc/sys/net/ipv4/ip_forward')
        if self.kind.rules:
            do('ip', 'netns', 'exec', self.nat, 'nft', '-f', '-', text=rules_of(self.kind))

    def remove(self):
        for name in (self.client, self.nat, self.server):
            subprocess.run(('ip', 'netns', 'del', name), stderr=subprocess.DEVNULL, check=False)

    def start(self, at, *words):
        """Starts a program in one of the networks, with the words of these networks in its environment."""
        told = {'SERVER': PRIMARY, 'SECONDARY': SECONDARY, 'INSIDE': self.kind.inside, 'NAT': self.kind.name}
        return subprocess.Popen(('ip', 'netns', 'exec', at, *words), stdin=subprocess.DEVNULL, stdout=subprocess.PIPE,
                                stderr=subprocess.STDOUT, text=True, errors='replace', env={**os.environ, **told},
                                start_new_session=True)
