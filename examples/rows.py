"""The networks of a situation: a core, a server, and on it two hosts, each behind its row of NATs, all by namespaces of Linux that
this makes and removes (`ip`, `nft`, `conntrack`). A client is a program that makes an IPv6 interface with a Teredo address.

NATs let in by kind, and keep ports as Linux does: where the port is free outside, it is the one inside.
"""
import os
import shutil
import signal
import subprocess
import tempfile
import time

import networks
import situations

SERVERS = {'primary': '192.0.2.1', 'secondary': '192.0.2.2'}
HOSTS, CARRIED, RELAY = {'a': '198.51.100.1', 'b': '198.51.100.2'}, '198.51.100.3', '203.0.113.9'
PORTS = {'a': '4000', 'b': '4001'}
NATIVE_ADDRESS, NATIVE_LINK, SERVER_LINK = '2001:db8::1', '2001:db8:1::9', '2001:db8:1::1'
COMMANDS = ('ip', 'nft', 'conntrack', 'sysctl')
# What a client of one's own takes the place of: it finds in its environment SERVER, SECONDARY, PORT, HOST (a or b), and FOLDER.
MIREDO = ('printf "InterfaceName teredo\\nServerAddress $SERVER\\nBindPort $PORT\\n" >$FOLDER/$HOST.conf; '
          'exec miredo -f -c $FOLDER/$HOST.conf -p $FOLDER/$HOST.pid')
RELAYS = ('printf "RelayType cone\\nInterfaceName teredo\\nBindAddress %s\\nBindPort 3545\\n" >$FOLDER/relay.conf; '
          'exec miredo -f -c $FOLDER/relay.conf -p $FOLDER/relay.pid') % RELAY
SERVES = ('printf "ServerBindAddress $SERVER\\nServerBindAddress2 $SECONDARY\\n" >$FOLDER/server.conf; '
          'exec miredo-server -f -c $FOLDER/server.conf -p $FOLDER/server.pid')
QUALIFY_SECONDS = 15
LAST_SECONDS = 6  # that the last packet has
AWAY = 0.5  # seconds for what is on its way
IDLE = situations.IDLE_SECONDS

INPUT = ('chain input { type filter hook input priority filter; policy drop; iifname "lan" accept; '
         'iifname "wan" icmp type { echo-request, destination-unreachable, time-exceeded } accept; }')
KNOWN = 'iifname "wan" ct state established,related accept'
MASQUERADE = 'chain post {{ type nat hook postrouting priority srcnat; oifname "wan" masquerade{}; }}'
SETS = (f'map inside {{ type inet_service : ipv4_addr; flags dynamic,timeout; timeout {IDLE}s; }}',
        f'set addresses {{ type ipv4_addr . inet_service; flags dynamic,timeout; timeout {IDLE}s; }}')
NOTES = (f'iifname "lan" oifname "wan" meta l4proto udp update @inside {{ udp sport timeout {IDLE}s : ip saddr }}',
         f'iifname "lan" oifname "wan" meta l4proto udp update @addresses {{ ip daddr . udp sport timeout {IDLE}s }}')
BACK = ('chain pre {{ type nat hook prerouting priority dstnat; iifname "wan" meta l4proto udp {}'
        'dnat to udp dport map @inside; }}')
LETS_IN = {'cone': '', 'restricted': 'ip saddr . udp dport @addresses '}


def rules_of(kind):
    """The rules of a NAT between the devices lan and wan."""
    passes, parts = ('iifname "lan" oifname "wan" accept', KNOWN), [INPUT, MASQUERADE.format(' fully-random' if kind == 'symmetric' else '')]
    if kind in LETS_IN:
        passes = NOTES + passes + ('iifname "wan" ct status dnat accept',)
        parts = [*SETS, *parts, BACK.format(LETS_IN[kind])]
    parts.append(f'chain through {{ type filter hook forward priority filter; policy drop; {"; ".join(passes)}; }}')
    return 'table ip teredo {\n' + ''.join(f'  {part}\n' for part in parts) + '}\n'


def missing(wants_miredo):
    """What this machine lacks for two real clients, or nothing."""
    wanted = COMMANDS + (('miredo', 'miredo-server') if wants_miredo else ())
    lacking = [word for word in wanted if not shutil.which(word)]
    if lacking:
        return f'no command {lacking[0]}'
    return 'wants root' if os.geteuid() else '' if os.path.exists('/dev/net/tun') else 'no /dev/net/tun'


class Rows:
    """The networks of one situation, while it is played."""

    def __init__(self, situation, number, program, client=None):
        self.situation, self.program, self.client = situation, program, client or MIREDO
        self.tag, self.made, self.started, self.wires, self.lans = f'teredo-{os.getpid()}-{number}', [], [], 0, 0
        self.nats = {'a': [], 'b': []}
        self.folder = tempfile.mkdtemp(prefix='teredo-rows-')
        os.chmod(self.folder, 0o755)  # a client may drop its rights

    def __enter__(self):
        try:
            self.make()
        except BaseException:
            self.remove()
            raise
        return self

    def __exit__(self, *_):
        self.remove()

    def do(self, node, *words, text=None):
        networks.do('ip', 'netns', 'exec', f'{self.tag}-{node}', *words, text=text)

    def add(self, node):
        networks.do('ip', 'netns', 'add', f'{self.tag}-{node}')
        self.made.append(node)
        self.do(node, 'ip', 'link', 'set', 'lo', 'up')
        self.do(node, 'sysctl', '-qw', 'net.ipv4.conf.all.rp_filter=0')

    def bridge(self, node, name):
        self.do(node, 'ip', 'link', 'add', 'name', name, 'type', 'bridge')
        self.do(node, 'ip', 'link', 'set', name, 'up')

    def join(self, upper, bridge, node, device):
        """A device of a node on a bridge of another one."""
        self.wires += 1
        networks.do('ip', 'link', 'add', device, 'netns', f'{self.tag}-{node}', 'type', 'veth', 'peer', 'name', f'port{self.wires}',
                    'netns', f'{self.tag}-{upper}')
        self.do(upper, 'ip', 'link', 'set', f'port{self.wires}', 'master', bridge, 'up')
        self.do(node, 'ip', 'link', 'set', device, 'up')

    def address(self, node, device, address, gateway):
        """On the core each address is on the link; behind a NAT this is the gateway."""
        self.do(node, 'ip', 'addr', 'add', f'{address}/24' if gateway else f'{address}/32', 'dev', device)
        self.do(node, 'ip', 'route', 'add', 'default', *(('via', gateway) if gateway else ('dev', device, 'scope', 'link')))

    def make(self):
        self.add('core')
        self.bridge('core', 'net')
        self.add('server')
        self.join('core', 'net', 'server', 'wire')
        for address in SERVERS.values():
            self.do('server', 'ip', 'addr', 'add', f'{address}/32', 'dev', 'wire')
        self.do('server', 'ip', 'route', 'add', 'default', 'dev', 'wire', 'scope', 'link')
        above = ('core', 'net', None)
        if self.situation.carrier:
            above = self.nat('carrier', self.situation.carrier, above, CARRIED)
        for name, host in (('a', self.situation.a), ('b', self.situation.b)):
            if host == situations.NATIVE:
                self.native()
            else:
                self.host(name, host, above)
        self.serve()

    def nat(self, node, kind, above, address):
        """A NAT below a network; the network that it makes."""
        upper, bridge, gateway = above
        self.add(node)
        self.join(upper, bridge, node, 'wan')
        self.address(node, 'wan', address, gateway)
        self.lans += 1
        own = f'100.64.{self.lans}.1'
        self.bridge(node, 'lan')
        self.do(node, 'ip', 'addr', 'add', f'{own}/24', 'dev', 'lan')
        self.do(node, 'sysctl', '-qw', 'net.ipv4.ip_forward=1')
        self.do(node, 'nft', '-f', '-', text=rules_of(kind))
        self.do(node, 'sysctl', '-qw', f'net.netfilter.nf_conntrack_udp_timeout={IDLE}', f'net.netfilter.nf_conntrack_udp_timeout_stream={IDLE}')
        return node, 'lan', own

    def host(self, name, host, above):
        """A client below its NATs, of which the outermost one is made first."""
        for number, kind in enumerate(reversed(situations.way_of(host))):
            node = f'nat-{name}-{number}'
            above = self.nat(node, kind, above, self.below(name, above))
            self.nats[name].append(node)
        self.add(name)
        self.join(*above[:2], name, 'wire')
        self.address(name, 'wire', self.below(name, above), above[2])

    def below(self, name, above):
        """The address of a host's row in the network above it."""
        return HOSTS[name] if above[2] is None else above[2].rpartition('.')[0] + ('.2' if name == 'a' else '.3')

    def native(self):
        """A native host and its relay, which are one machine, and the server's way there."""
        self.add('native')
        self.join('core', 'net', 'native', 'wire')
        self.address('native', 'wire', RELAY, None)
        for words in ((f'{NATIVE_ADDRESS}/128', 'dev', 'lo'), (f'{NATIVE_LINK}/64', 'dev', 'wire', 'nodad')):
            self.do('native', 'ip', '-6', 'addr', 'add', *words)
        self.do('native', 'sysctl', '-qw', 'net.ipv6.conf.all.forwarding=1')
        self.do('server', 'ip', '-6', 'addr', 'add', f'{SERVER_LINK}/64', 'dev', 'wire', 'nodad')
        self.do('server', 'ip', '-6', 'route', 'add', 'default', 'via', NATIVE_LINK)

    def start(self, node, command, **more):
        told = {'SERVER': SERVERS['primary'], 'SECONDARY': SERVERS['secondary'], 'FOLDER': self.folder, 'PROGRAM': self.program, **more}
        self.started.append(subprocess.Popen(('ip', 'netns', 'exec', f'{self.tag}-{node}', 'sh', '-c', command), stdin=subprocess.DEVNULL,
                                             stdout=subprocess.DEVNULL, stderr=subprocess.DEVNULL, env={**os.environ, **told}, start_new_session=True))

    def serve(self):
        """`serve`; where there is a native host a server that has a way to it, which `serve` hasn't."""
        has_native = self.situation.has_native()
        self.start('server', SERVES if has_native else 'exec "$PROGRAM" serve $SERVER $SECONDARY 1000000000 1000000000')
        until(lambda: self.said('server', 'ss', '-Huln', 'sport = :3544').count('\n') >= len(SERVERS), networks.SOON)
        if has_native:
            self.start('native', RELAYS)

    def said(self, node, *words):
        return subprocess.run(('ip', 'netns', 'exec', f'{self.tag}-{node}', *words), stdin=subprocess.DEVNULL, stdout=subprocess.PIPE,
                              stderr=subprocess.DEVNULL, text=True, check=False).stdout

    def remove(self):
        for how in (signal.SIGTERM, signal.SIGKILL):
            for node in self.made:
                for number in subprocess.run(('ip', 'netns', 'pids', f'{self.tag}-{node}'), stdout=subprocess.PIPE, text=True, check=False).stdout.split():
                    end(int(number), how)
            until(lambda: all(program.poll() is not None for program in self.started), networks.SOON)
        for node in self.made:
            subprocess.run(('ip', 'netns', 'del', f'{self.tag}-{node}'), stderr=subprocess.DEVNULL, check=False)
        shutil.rmtree(self.folder, ignore_errors=True)


def end(number, how):
    try:
        os.kill(number, how)
    except OSError:
        pass


def until(holds, seconds):
    """Waits until it holds, for so long at most; whether it does."""
    last = time.monotonic() + seconds
    while not holds():
        if time.monotonic() > last:
            return False
        time.sleep(0.05)
    return True
