"""The examples, by what one may ask, and the scenario of two hosts from menus."""
import os
import re

import command
import fates
import probes
from scenario import IDLE_MS, Scenario

EXAMPLES = os.path.join(command.TOP, 'examples')
QUESTIONS = (
    ('Two homes, both port restricted: how do they meet?', 'two_port_restricted'),
    ('A home router behind a carrier\'s NAT', 'home_behind_carrier'),
    ('Two homes behind one carrier: why not?', 'two_homes'),
    ('How does a client find out that its NAT is a cone?', 'cone_client'),
    ('And behind a port restricted one?', 'port_restricted_client'),
    ('Why has a client behind a symmetric NAT no address?', 'symmetric_client'),
    ('Two clients behind one NAT', 'behind_one_nat'),
    ('From a client to a host of the IPv6 Internet', 'client_to_native'),
    ('From there to a client', 'native_to_client'),
    ('A datagram is lost: who tries again?', 'lost_bubble'),
    ('The mapping has run out', 'lost_mapping'),
    ('The NAT forgets everybody', 'restarted_nat'),
    ('Somebody lies about who he is', 'forged_source'))


def groups():
    """The examples that are played, in groups: of each its name, what it shows and its text."""
    page = command.read(os.path.join(EXAMPLES, 'README.md'))
    found, heading = [], ''
    for line in page.splitlines():
        if line.startswith('#'):
            heading = line.lstrip('# ')
        row = re.match(r'\| `(\w+)` \| ([^|]*) \|', line)
        text = text_of(row[1]) if row else None
        if text is not None:
            if not found or found[-1]['title'] != heading:
                found.append({'title': heading, 'items': []})
            found[-1]['items'].append({'name': row[1], 'shows': fates.plain(row[2]), 'text': text})
    asked = {item['name']: item for group in found for item in group['items']}
    first = [{**asked[name], 'shows': question} for question, name in QUESTIONS if name in asked]
    return [{'title': 'Questions', 'items': first}] + found


def text_of(name):
    """The scenario of an example, None where there is none of this name."""
    for folder in ('scenarios', 'chains'):
        path = os.path.join(EXAMPLES, folder, f'{name}.toml')
        if os.path.exists(path):
            return command.read(path)
    return None


# Two hosts from menus.

KINDS = ('cone', 'restricted', 'port', 'symmetric')
CARRIERS = ('none', 'each', 'one')  # whether there are NATs of carriers outside of the hosts' own: one of each host, or one of both
NATIVE = 'native'  # in place of the second client's NAT
REFRESH_MS = (22_500, 30_000)
IDLE_MAX = 10_000_000
REFRESH_MIN, REFRESH_MAX = 1000, 1_000_000


def checked(choice, key, known, default):
    """What was chosen, or a refusal where that is no such choice."""
    value = choice.get(key, default)
    if isinstance(known, tuple) and value in known and type(value) is type(known[0]):
        return value
    if isinstance(known, range) and type(value) is int and value in known:
        return value
    raise command.Refusal(f'{key}: {str(value)[:40]!r} is none of these')


def host(choice, may_be_native):
    """What was chosen of a host."""
    choice = choice if isinstance(choice, dict) else {}
    kinds = KINDS + ((NATIVE,) if may_be_native else ())
    return {'kind': checked(choice, 'kind', kinds, 'port'), 'idle': checked(choice, 'idle', range(1, IDLE_MAX + 1), IDLE_MS),
            'cone_try': checked(choice, 'cone_try', (True, False), True), 'carrier': checked(choice, 'carrier', KINDS, 'port')}


def two_hosts(choice, play):
    """The scenario of two hosts `a` and `b` that exchange a packet each way, and the number of the first one's event. `play` answers
    the status and the report of a text."""
    homes = {'a': host(choice.get('a'), False), 'b': host(choice.get('b'), True)}
    carriers = checked(choice, 'carriers', CARRIERS, 'none')
    low, high = (checked(choice, key, range(REFRESH_MIN, REFRESH_MAX + 1), most) for key, most in zip(('low', 'high'), REFRESH_MS))
    if low > high:
        raise command.Refusal('the shortest time between two refreshes is above the longest one')
    if homes['b']['kind'] == NATIVE and carriers != 'none':
        raise command.Refusal('with a carrier\'s NAT there are clients alone: an IPv6 host needs a relay, and `nested` has none')
    lab = Scenario()
    lab.server('s1')
    clients = {name: home for name, home in homes.items() if home['kind'] != NATIVE}
    nats = {name: lab.nat(f'n{at}', home['kind'], home['idle']) for at, (name, home) in enumerate(clients.items(), 1)}
    lab.chain = chain_of(lab, nats, carriers, clients, checked(choice, 'carrier', KINDS, 'port'))
    for name, home in clients.items():
        lab.client(name, nats[name], refresh=(low, high), **({} if home['cone_try'] else {'cone_try': False}))
    if NATIVE in (home['kind'] for home in homes.values()):
        lab.relay('r1')
        lab.native('b')
    return deliver_all(lab, play)


def chain_of(lab, nats, carriers, homes, kind):
    """The carriers' NATs outside of these, and the chain that they make; one for all is of this kind."""
    if carriers == 'none':
        return None
    if carriers == 'one':
        carrier = lab.nat('carrier', kind)
        return ','.join(f'{nat}:{carrier}' for nat in nats.values())
    return ','.join(f'{nat}:{lab.nat(f"carrier_{name}", homes[name]["carrier"])}' for name, nat in nats.items())


def deliver_all(lab, play):
    """The text, in which all is delivered between two events, and the number of the event that is the first packet."""
    text = lab.text()
    for event in ('advance 0', 'advance 12000', 'advance 0'):
        text = probes.with_deliveries(probes.with_events(text, [event]), play)
    packet = probes.count_of(text)
    for event in ('host a b 68656c6c6f', 'host b a 68656c6c6f'):
        text = probes.with_deliveries(probes.with_events(text, [event]), play)
    return text, packet
