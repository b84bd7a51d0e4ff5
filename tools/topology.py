"""The nodes of a scenario: the kind of each, who stands behind which NAT, and who is at an endpoint.

Of a report alone the kinds are told from the fates, as far as they go, and nobody is known to be behind a NAT.
"""
from collections.abc import Collection
from dataclasses import dataclass, field

import fates
import chains
import toml_places
from chains import Table
from report import Report

LISTS = ('server', 'nat', 'client', 'relay', 'native')
LETTERS = {'C': 'client', 'S': 'server', 'R': 'relay', 'H': 'native', 'N': 'nat'}  # of the column `of` in docs/SCENARIOS.md


@dataclass
class Topology:
    kinds: dict[str, str] = field(default_factory=dict)  # of each node by its name
    tables: dict[str, Table] = field(default_factory=dict)  # its keys and values
    outer: dict[str, str] = field(default_factory=dict)  # of a NAT the one outside of it

    def of(self, kind: str) -> list[str]:
        return [name for name, known in self.kinds.items() if known == kind]

    def way_out(self, client: str) -> list[str]:
        """The NATs that what a client sends passes, the nearest first."""
        nat = self.tables.get(client, {}).get('nat')
        return chains.way_out(self.outer, nat) if nat else []

    def way(self, maker: str, is_sent: bool, node: str | None) -> list[str]:
        """The NATs that a datagram passes: out from its maker, where that is the client who sent it, and in to a node."""
        out = self.way_out(maker) if is_sent else []
        if node is None:
            return out
        if self.kinds.get(node) == 'client':
            return out + self.way_out(node)[::-1]
        return out + (chains.way_out(self.outer, node)[:0:-1] if self.kinds.get(node) == 'nat' else [])

    def turned_back_by(self, client: str, target: str) -> str | None:
        """The NAT on a client's way out whose own address this is, or None."""
        address = target.rpartition(':')[0]
        return next((nat for nat in self.way_out(client) if self.tables[nat].get('external') == address), None)

    def node_at(self, endpoint: str) -> str | None:
        """The server, relay or NAT that an endpoint belongs to, or None."""
        address = endpoint.rpartition(':')[0]
        for name, table in self.tables.items():
            if endpoint == table.get('at') or address and address in (table.get('external'), table.get('primary'), table.get('secondary')):
                return name
        return None

    def whose(self, nat: str, inside: str) -> str:
        """Who is at an endpoint inside of a NAT: a client, another NAT, or where nobody is known the endpoint."""
        clients = (name for name in self.of('client') if (self.tables[name].get('nat'), self.tables[name].get('inside')) == (nat, inside))
        inner = (name for name, outer in self.outer.items() if outer == nat and self.tables[name]['external'] == inside.rpartition(':')[0])
        return next(iter([*clients, *inner, inside]))

    def is_secondary(self, endpoint: str) -> bool:
        """Whether this is the second address of a server."""
        address = endpoint.rpartition(':')[0]
        return any(table.get('secondary') == address for table in self.tables.values())


def topology_of(text: str, chain: str | None = None) -> Topology:
    """The topology of a scenario that is played; with no chain, of the one that it says."""
    top = toml_places.read(text).plain()
    found = Topology()
    for kind in LISTS:
        for table in chains.tables(top, kind):
            if isinstance(table.get('name'), str):
                found.kinds[table['name']] = kind
                found.tables[table['name']] = table
    chain = chains.chain_of(text) if chain is None else chain
    if chain and chains.fault_of(top, chain) is None:
        found.outer = {inner: outer for inner, outer in chains.pairs_of(chain)}
    return found


def guessed(report: Report) -> Topology:
    """What the fates of a report tell of its nodes."""
    found = Topology()
    for node, records in report.by_node.items():
        letters = [set(fates.FATES[record.fate].of.replace(' ', '').split(',')) for record in records if record.fate in fates.FATES]
        known = set.intersection(*letters) if letters else set()
        kinds = [kind for letter, kind in LETTERS.items() if letter in known]
        if node != '-':
            found.kinds[node] = 'client' if node in report.asked else kinds[0] if kinds else 'nat'
    return found


def homes(topology: Topology, seen: Collection[str]) -> list[list[str]]:
    """The clients and NATs that are seen, a list for each outermost NAT, which stands last; each stands before the NAT it is behind."""
    found: dict[str, list[str]] = {}
    for client in topology.of('client'):
        way = topology.way_out(client)
        found.setdefault(way[-1] if way else client, behind(topology, way[-1]) if way else [client])
    for nat in topology.of('nat'):  # one that nobody is behind
        if not any(nat in home for home in found.values()):
            found[nat] = [nat]
    whole = [[name for name in home if name in seen] for home in found.values()]
    return [home for home in whole if home]


def behind(topology: Topology, nat: str) -> list[str]:
    """Who is behind a NAT, each before the NAT that it is behind, and the NAT last."""
    inner = [name for known in topology.of('nat') if topology.outer.get(known) == nat for name in behind(topology, known)]
    return inner + [client for client in topology.of('client') if topology.tables.get(client, {}).get('nat') == nat] + [nat]


def columns(topology: Topology, seen: Collection[str]) -> list[str]:
    """Nodes in the order in which a picture has them: clients, their NATs, servers, and at the other end relays and hosts; where
    there are none, the other half of the clients, with their NATs before them. Who is unknown stands last."""
    left, right = homes(topology, seen), list[list[str]]()
    far = [name for kind in ('relay', 'native') for name in topology.of(kind) if name in seen]
    if not far and len(left) > 1:
        half = (len(left) + 1) // 2
        left, right = left[:half], left[half:]
    order = [name for home in left for name in home]
    order += [name for name in topology.of('server') if name in seen] + far
    order += [name for home in right for name in reversed(home)]
    return order + [name for name in seen if name not in order]
