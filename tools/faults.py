"""All faults of a scenario's text, as lines of the kind that `lab` says of the first: docs/SCENARIOS.md, "Refusals", has the rules.

A fault that may come of another one is left out: a name that nobody has where a node's own name is wrong, a key that is
missing where one is misspelt.
"""
import ipaddress
import re

import wanted

LISTS = {'server': 8, 'nat': 64, 'client': 64, 'relay': 4, 'native': 64}  # and how long each may be
NAME = re.compile('[a-z][a-z0-9_]{0,15}')
NUMBER = re.compile('0|[1-9][0-9]*')
SIX = re.compile('[0-9a-fA-F:]+')
NOT_GLOBAL = [ipaddress.ip_network(net) for net in ('0.0.0.0/8', '10.0.0.0/8', '127.0.0.0/8', '169.254.0.0/16', '172.16.0.0/12',
                                                    '192.168.0.0/16', '224.0.0.0/4', '240.0.0.0/4')]
NATIVE, TEREDO = ipaddress.ip_network('2000::/3'), ipaddress.ip_network('2001::/32')
SEED_MAX, IDLE_MAX, EVENTS_MAX = 2 ** 63 - 1, 10_000_000, 50_000
REFRESH_MIN, REFRESH_MAX = 1000, 1_000_000
PORT_MAX = 65_535
KINDS, FLAGS = ('cone', 'restricted', 'port', 'symmetric'), ('zero', 'random')
OPTIONAL = ('refresh', 'flags', 'cone_try')
OUTSIDE = ('primary', 'secondary', 'external', 'at')  # whose addresses all differ
FAULTS_MAX = 100  # that are said of one text
NUMBERS_MAX = {'MS': 1_000_000_000, 'N': 65_535, 'SEQ': 65_535, 'K': 7}
HEX_MAX = {'host': 1240, 'raw': 1400, 'stranger': 1400}


def number_of(text, most):
    """A number as texts have it, or None."""
    return int(text) if NUMBER.fullmatch(text) and len(text) <= 10 and int(text) <= most else None


def four_of(text):
    """An IPv4 address, or None."""
    parts = text.split('.')
    if len(parts) != 4 or any(number_of(part, 255) is None for part in parts):
        return None
    return ipaddress.IPv4Address(text)


def endpoint_of(text, least):
    """The address and the port of an endpoint, or None."""
    address, sign, port = text.rpartition(':')
    number = number_of(port, PORT_MAX)
    return (four_of(address), number) if sign and four_of(address) is not None and number is not None and number >= least else None


def six_of(text):
    """An IPv6 address without a dotted tail, or None."""
    try:
        return ipaddress.IPv6Address(text) if SIX.fullmatch(text) else None
    except ValueError:
        return None


def is_global(address):
    return address is not None and not any(address in net for net in NOT_GLOBAL)


def is_whole(value):
    return isinstance(value, int) and not isinstance(value, bool)


def kind_of(value):
    """The type of a key's value, as docs/SCENARIOS.md has it."""
    if isinstance(value, str):
        return 'text'
    if isinstance(value, bool):
        return 'truth value'
    if is_whole(value):
        return 'whole number'
    if isinstance(value, list) and len(value) == 2 and all(map(is_whole, value)):
        return 'list of two whole numbers'
    return None


class Faults:
    """The faults of a scenario, which is plain dictionaries and lists; `lines` has them in the order of refusal."""

    def __init__(self, top):
        self.top, self.lines, self.types = top, [], wanted.page_keys()
        self.outside, self.insides, self.sixes, self.names = set(), set(), set(), {}
        self.unsure = set()  # kinds some of whose names aren't known
        self.collect()
        self.top_keys()
        for kind in LISTS:
            self.list(kind)
        self.events()

    def tables(self, kind):
        found = self.top.get(kind, [])
        return found if isinstance(found, list) else []

    def collect(self):
        """The names of all nodes, whatever else is wrong with them, with what they are and what they are behind."""
        for kind in LISTS:
            if kind in self.top and not isinstance(self.top[kind], list):
                self.unsure.add(kind)
            for table in self.tables(kind):
                name = table.get('name') if isinstance(table, dict) else None
                if isinstance(name, str) and NAME.fullmatch(name) and name not in self.names:
                    self.names[name] = kind, table.get('nat')
                else:
                    self.unsure.add(kind)

    def say(self, place, word):
        self.lines.append(f'scenario {place}: {word}')

    def unknown(self, place, table, known):
        """The keys that aren't known, and which known ones they may be meant for."""
        keys = sorted((key for key in table if key not in known), key=lambda key: key.encode('utf-8', 'replace'))
        for key in keys:
            self.say(place + shown(key), 'key')
        return {word for key in keys for word in known if wanted.nearest(key, [word])}

    def top_keys(self):
        meant = self.unknown('', self.top, ['seed', *LISTS, 'events'])
        self.unsure |= meant & set(LISTS)
        self.meant_at_top = meant
        seed = self.top.get('seed')
        if 'seed' not in self.top:
            if 'seed' not in meant:
                self.say('seed', 'key')
        elif not is_whole(seed):
            self.say('seed', 'kind')
        elif not 0 <= seed <= SEED_MAX:
            self.say('seed', 'range')

    def list(self, kind):
        found = self.top.get(kind, [])
        if not isinstance(found, list):
            self.say(kind, 'kind')
            return
        if len(found) > LISTS[kind]:
            self.say(kind, 'range')
        for at, table in enumerate(found[:LISTS[kind]]):
            if isinstance(table, dict):
                self.table(kind, f'{kind}[{at}]', table)
            else:
                self.say(f'{kind}[{at}]', 'kind')

    def table(self, kind, place, table):
        keys = [key for where, key in self.types if where == kind]
        meant = self.unknown(f'{place}.', table, keys)
        for key in keys:
            if key not in table:
                if key not in OPTIONAL and key not in meant:
                    self.say(f'{place}.{key}', 'key')
            elif kind_of(table[key]) != self.types[kind, key]:
                self.say(f'{place}.{key}', 'kind')
            else:
                word = self.fault_of(kind, table, key, table[key])
                if word:
                    self.say(f'{place}.{key}', word)

    def fault_of(self, kind, table, key, value):
        """The word for a value that has the right type, or None."""
        if key == 'name':
            return None if NAME.fullmatch(value) and self.is_first(value, table) else 'name'
        if key in LISTS:  # the name of such a node
            known = self.names.get(value, (None,))[0]
            return None if known == key or known is None and key in self.unsure else 'name'
        rules = {'kind': lambda: value in KINDS, 'flags': lambda: value in FLAGS, 'cone_try': lambda: True,
                 'idle': lambda: 1 <= value <= IDLE_MAX, 'refresh': lambda: REFRESH_MIN <= value[0] <= value[1] <= REFRESH_MAX,
                 'inside': lambda: self.inside(table.get('nat'), value), 'six': lambda: self.six(value)}
        return None if rules.get(key, lambda: self.is_outside(key, value))() else 'range'

    def is_first(self, name, table):
        """Whether no node before has this name."""
        for kind in LISTS:
            for other in self.tables(kind)[:LISTS[kind]]:
                if other is table:
                    return True
                if isinstance(other, dict) and other.get('name') == name:
                    return False
        return True

    def is_outside(self, key, value):
        """Whether this is a global address, or an endpoint with one, that no node before has."""
        address = (endpoint_of(value, 1) or (None,))[0] if key == 'at' else four_of(value)
        is_new = address not in self.outside
        self.outside.add(address)
        return is_global(address) and is_new

    def inside(self, nat, value):
        endpoint = endpoint_of(value, 1)
        is_new = (str(nat), endpoint) not in self.insides
        self.insides.add((str(nat), endpoint))
        return endpoint is not None and is_new

    def six(self, value):
        address = six_of(value)
        is_new = address not in self.sixes
        self.sixes.add(address)
        return address is not None and address in NATIVE and address not in TEREDO and is_new

    def events(self):
        events = self.top.get('events')
        if 'events' not in self.top:
            if 'events' not in self.meant_at_top:
                self.say('events', 'key')
        elif not isinstance(events, list) or not all(isinstance(event, str) for event in events):
            self.say('events', 'kind')
        else:
            if len(events) > EVENTS_MAX:
                self.say('events', 'range')
            for number, event in enumerate(events[:EVENTS_MAX]):
                place = self.place_of(event)
                if place is not None:
                    self.say(f'events[{number}] at {place}', 'event')

    def place_of(self, event):
        """The byte at which a text stops to be an event, or None."""
        words = event.split(' ')
        shape = SHAPES.get(words[0])
        if shape is None:
            return 0
        for at, word in enumerate(words[1:], 1):
            if at >= len(shape) or not self.is_word(words, shape[at], word):
                return len(' '.join(words[:at]).encode('utf-8', 'replace')) + 1
        return None if len(words) == len(shape) else len(event.encode('utf-8', 'replace'))

    def is_word(self, words, place, word):
        """Whether a word may stand at a place of its event."""
        if place in NUMBERS_MAX:
            return number_of(word, NUMBERS_MAX[place]) is not None
        if place == 'HEX':
            return word == '-' or bool(re.fullmatch('([0-9a-fA-F]{2})+', word)) and len(word) <= 2 * HEX_MAX[words[0]]
        if place == 'EP':
            return endpoint_of(word, 0) is not None
        if place == 'B' and six_of(word) is not None:
            return True
        return self.is_node(words, place, word)

    def is_node(self, words, place, word):
        kinds = {'NAT': ('nat',), 'CLIENT': ('client',)}.get(place, tuple(LISTS) if words[0] == 'restart' else ('client', 'native'))
        kind, nat = self.names.get(word, (None, None))
        if kind is None:
            return bool(self.unsure & set(kinds)) and bool(NAME.fullmatch(word))
        return kind in kinds and (place != 'CLIENT' or nat == words[1] or words[1] not in self.names)


def shown(key):
    """A key as a path has it: 32 bytes of it, `?` for what isn't visible ASCII."""
    return ''.join(chr(byte) if 33 <= byte <= 126 else '?' for byte in key.encode('utf-8', 'replace')[:32])


SHAPES = {word: shape for word, (shape, _) in wanted.events().items()}


def lines_of(top, said):
    """What is said of each fault, at most FAULTS_MAX of them, what the program said first."""
    return ([said] + [line for line in Faults(top).lines if line != said])[:FAULTS_MAX]
