"""The scenarios of `relayed.py`: a first packet between a client and a host of the IPv6 Internet, each premise of it broken, and lies."""
import make
from scenario import Scenario

# The kind of the NAT of each kind of client, and keys of its own.
KINDS = {'cone': ('cone', {}), 'no-bit': ('cone', {'cone_try': False}), 'restricted': ('restricted', {}), 'port': ('port', {})}
WAYS = {'to': ('a', 'h1'), 'from': ('h1', 'a')}  # of a native host: to it and from it
SERVER, MAPPED, RELAY, STRANGER, ELSEWHERE = '192.0.2.1', '198.51.100.1:1024', '203.0.113.9:3545', '203.0.113.66:4000', '203.0.113.77'
HOST, OF_RELAY = '2001:db8::1', '2001:db8:9::1'
CONE, CLOSED = make.teredo(SERVER, MAPPED, cone=True), make.teredo(SERVER, MAPPED)  # addresses of `a`
NONCE = bytes.fromhex('6cf84512d1d6fbcf')  # of the first test of a cone client here: who reads the wire knows it
PEERS_MAX, GIVE_UP_MS = 256, 8000
BODY, OTHER = '00', '0000'  # of the packet that is asked for, and of each other one


def lab(kind='port', clients=('a',)):
    """The client, which has qualified, and maybe another one behind its NAT; a relay and its host."""
    made = Scenario()
    made.server('s1')
    nat_kind, keys = KINDS[kind]
    nat = made.nat('n1', nat_kind)
    for name in clients:
        made.client(name, nat, **keys)
    made.relay('r1')
    made.native('h1')
    made.qualify()
    return made


def packet_event(way, word='host'):
    return f'{word} {" ".join(WAYS[way])} {BODY if word == "host" else 1}'


def stranger(data, source=STRANGER):
    return f'stranger {source} {MAPPED} {data.hex()}'


def from_host(to=CONE):
    """A packet in the name of the host that it never sent."""
    return make.packet(HOST, to, make.DATA, b'\0')


def reply(source, target, nonce):
    return make.icmp(source, target, 129, b'\0' * 4 + nonce)


def ends(way):
    """The source and the destination of a packet between the host and `a` without the cone bit."""
    return (CLOSED, HOST) if way == 'to' else (HOST, CLOSED)


# Each plays the end of a scenario in which a premise doesn't hold.

def unsettled(made, way):
    made.event('restart n1', 'restart b', 'advance 0', 'settle', packet_event(way), 'settle')


def tested(made, way):
    made.event('fault 0', f'host a h1 {OTHER}', packet_event(way), 'settle')


def taken_for_host(made, way):
    spoken_and_answered(made)
    made.event('settle', packet_event(way), 'settle')


def asked_for(made, way):
    made.event(f'host h1 a {OTHER}', 'fault 0', 'next', packet_event(way), 'settle')


def met(made):
    made.event(f'host a h1 {OTHER}', 'settle')


def forgotten_by_nat(made, way):
    met(made)
    made.event('restart n1', 'restart a')
    made.qualify()
    made.event(packet_event(way), 'settle')


def forgotten_by_relay(made, way):
    met(made)
    made.event('restart r1', packet_event(way), 'settle')


def listed_relay(made, way):
    made.event('fault 0', f'host a {OF_RELAY} {OTHER}', packet_event(way), 'settle')


def full_client(made, way, others=PEERS_MAX):
    made.event(*(f'host a 2001:db8:1::{number:x} {OTHER}' for number in range(others)), 'settle', packet_event(way), 'settle')


def nearly_full_client(made, way):
    full_client(made, way, PEERS_MAX - 1)


def full_relay(made, way):
    others = (make.teredo(SERVER, f'{ELSEWHERE}:{port}', cone=True) for port in range(1, PEERS_MAX + 1))
    made.event(*(f'host h1 {address} {OTHER}' for address in others), 'settle', packet_event(way), 'settle')


def raw(made, way, data):
    made.event(f'raw {WAYS[way][0]} {data.hex()}', 'settle')


def bubble(made, way):
    raw(made, way, make.bubble(*ends(way)))


def long_packet(made, way):
    raw(made, way, make.packet(*ends(way), make.DATA, bytes(1241)))


def echo_reply(made, way):
    raw(made, way, reply(*ends(way), b''))


def failed_send(made, way):
    made.event('fault 0', packet_event(way), 'settle')


def lost_reply(made, way):
    made.event(packet_event(way), *['next'] * (2 if way == 'to' else 7))


def waited(made, way):
    made.event(packet_event(way), *['next'] * (way == 'from'), f'advance {GIVE_UP_MS}', 'settle')


def restarted_midway(made, way):
    made.event(packet_event(way), *['next'] * (3 if way == 'to' else 1), 'restart r1', 'settle')


def answered_first(made, way):
    made.event(packet_event(way), *['next'] * (2 if way == 'from' else 0), stranger(reply(HOST, CONE, NONCE)))
    made.event(f'deliver {3 if way == "to" else 5}', 'settle')


# what breaks a premise, in the order of docs/SURE.md, the kind of client and its scenario; the last is none on the way to the host
WITHOUT = [
    ('a is not settled: its port is that of another', 'port', unsettled),
    ('a lists h1: it has just tested it, in vain', 'port', tested),
    ('a lists h1: a stranger has answered the test', 'cone', taken_for_host),
    ('r1 lists a: it has just asked for it, in vain', 'port', asked_for),
    ('r1 lists a, and the NAT has forgotten r1', 'port', forgotten_by_nat),
    ('a lists both, and r1 has forgotten a', 'port', forgotten_by_relay),
    ('a lists r1: it has just sent to its address', 'port', listed_relay),
    ('a lists 256 others', 'port', full_client),
    ('a lists 255 others', 'port', nearly_full_client),
    ('r1 lists 256 others', 'port', full_relay),
    ('the packet is a bubble', 'port', bubble),
    ('the packet has 1,281 bytes', 'port', long_packet),
    ('the first send fails', 'port', failed_send),
    ('the reply to the test is lost', 'port', lost_reply),
    ('8 seconds pass', 'port', waited),
    ('r1 starts anew while a packet waits there', 'port', restarted_midway),
    ('a stranger reads the test, and answers first', 'cone', answered_first),
    ('the packet is an echo reply', 'port', echo_reply),
]
FROM_ALONE = echo_reply
NOT_WITH_BIT = (listed_relay, nearly_full_client)  # are none where the client's address has the cone bit


def spoken(made):
    made.event(stranger(from_host()), 'settle')


def spoken_and_answered(made):
    made.event(stranger(from_host()), 'next', stranger(reply(HOST, CONE, NONCE)), 'deliver 4')


def spoken_for_relay(made):
    made.event(stranger(from_host(), RELAY), 'settle')


def spoken_for_trusted_relay(made):
    met(made)
    made.event(stranger(from_host(CLOSED), RELAY), 'next')


# what a stranger sends in the name of the host, the kind of client and its scenario
LIES = [
    ('a stranger sends, and h1 answers the test', 'cone', spoken),
    ('he reads the test, and answers it', 'cone', spoken_and_answered),
    ('he sends from r1, and h1 answers the test', 'cone', spoken_for_relay),
    ('he sends from r1, which a trusts for h1', 'port', spoken_for_trusted_relay),
]


def lines(way):
    """What breaks a premise on this way."""
    return [line for line in WITHOUT if way == 'from' or line[2] is not FROM_ALONE]


def course_scenario(kind, way, word):
    made = lab(kind)
    made.event(packet_event(way, word), 'settle')
    return made.text()


def without(line, way, kind=None):
    _, of_line, play = line
    made = lab(kind or of_line, ('a', 'b') if play is unsettled else ('a',))
    play(made, way)
    return made.text()


def lie(line):
    made = lab(line[1])
    line[2](made)
    return made.text()
