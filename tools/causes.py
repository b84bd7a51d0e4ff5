"""Why a packet was dropped, waits or is held: a sentence for each way, made of what `state` says that the nodes keep at that record.

Of a report alone, and where nothing answers `state`, it is what docs/SCENARIOS.md says of the fate.
"""
from __future__ import annotations

import fates
from followed import Load
from kept import TRY_GAP_MS, Client, Kept, Lets, Peer, Port, Void
from report import SOLICITATIONS, Entry, Loss, Mark, Record, teredo_parts
from told import Told

NAMED_MAX = 3  # whom a NAT lets in, that are named
DEPTH_MAX = 3  # sentences within sentences
PHASES = {'cone': 'it asks still, whether its NAT is a cone', 'restricted': 'it asks still, from one address of its server',
          'secondary': 'it asks still, at the second address of its server', 'offline': 'it gave up', 'symmetric': 'a NAT on its way is symmetric'}


def ms(moment: int) -> str:
    return f'{moment:,} ms'


def at(record: Record) -> str:
    return f'at {ms(record.moment)}'


def meaning(record: Record) -> str:
    """What docs/SCENARIOS.md says of a fate."""
    fate = fates.FATES[record.fate]
    return fate.means + (f' (likely: {fate.cause})' if fate.cause else '')


def of_drop(told: Told, record: Record, depth: int = 0) -> str:
    """Why the node of a record dropped what it was given."""
    ways = {'nat_closed': of_closed_nat, 'off': of_off, 'dest': of_destination, 'barred': of_barred, 'mismatch': of_mismatch,
            'unlisted': of_unlisted, 'not_mine': of_old_address, 'suspicious_test': of_suspicious, 'suspicious': of_suspicious,
            'nowhere': of_nowhere, 'source': of_source}
    way = ways.get(record.fate)
    return (way(told, told.kept, record, depth) if way and told.kept and depth < DEPTH_MAX else '') or meaning(record)


def of_loss(told: Told, loss: Loss) -> str:
    if loss.word == 'hairpin':
        nat = told.known.turned_back_by(loss.maker.node, loss.target)
        return f'sender and peer are behind one NAT{f", {nat}" if nat else ""}: to each other they send to its outside address, and it turns nothing back'
    if loss.word == 'fault':
        return f'the send failed, as `fault` let it, and {loss.maker.node} doesn\'t know: nothing went out to {loss.target}'
    if loss.word == 'full':
        return f'the NAT has no room for another mapping: nothing went out to {loss.target}'
    return f'!{loss.word}: nothing went out to {loss.target}'


def of_undelivered(told: Told, entry: Entry) -> str:
    when_not = 'wasn\'t delivered yet' if told.report.delivered(entry) else 'was never delivered'
    return f'#{entry.number}, the {told.report.content(entry)} {entry.way}, {when_not}'


# NATs


def port_at(told: Told, kept: Kept, nat: str, entry: Entry, count: int) -> int | None:
    """The port of a NAT that an entry has come to: its own, or of an inner NAT that toward which the one outside turns it."""
    outer = next((name for name in told.known.of('nat') if told.known.tables[name]['external'] == entry.target.rpartition(':')[0]), None)
    number = int(entry.target.rpartition(':')[2])
    while outer is not None and outer != nat:
        port, _ = kept.last_port(outer, number, count)
        if port is None:
            return None
        address, _, inner = port.inside.rpartition(':')
        outer = next((name for name, beyond in told.known.outer.items() if beyond == outer and told.known.tables[name]['external'] == address), None)
        number = int(inner)
    return number if outer else None


def whose(told: Told, nat: str, inside: str) -> str:
    """Who is at an endpoint inside of a NAT: a client, or another NAT."""
    return told.known.whose(nat, inside)


def of_closed_nat(told: Told, kept: Kept, record: Record, depth: int) -> str:
    entry, nat, count, now = told.report.came_by(record), record.node, told.first_count(record), record.moment
    number = port_at(told, kept, nat, entry, count)
    if number is None:
        return ''
    port = kept.port(nat, number, count, now)
    if port is None:
        return of_dead_port(told, kept, record, number, count)
    client = whose(told, nat, port.inside)
    if port.toward:
        return f'port {number} of {nat} is {client}\'s toward {port.toward} alone, and this is from {entry.source}'
    said = let_in_before(kept, port, nat, count, entry.source) + f'port {number} of {nat}, {client}\'s, lets in {whom(kept.lets(nat, number, count, now))}, ' \
        f'and this is from {entry.source}'
    return said + failed(told, record, client, entry.source) + as_meant(told, entry) + other_port(told, kept, entry, record) + takes_for_cone(told, kept, record, port, nat)


def whom(lets: list[Lets]) -> str:
    """Whom a port lets in, and until when: those that may longest."""
    told = [f'{one.source} until {ms(one.until)}' for one in sorted(lets, key=lambda one: -one.until)]
    more = [f'{len(told) - NAMED_MAX} more'] if len(told) > NAMED_MAX else []
    return ' and '.join(told[:NAMED_MAX] + more) or 'nobody'


def let_in_before(kept: Kept, port: Port, nat: str, count: int, source: str) -> str:
    """That somebody was let in once."""
    names = (source, source.rpartition(':')[0])
    ended = [one for one in kept.said_of_lets(nat, port.number, count) if one.source in names]
    return f'{nat} let {ended[-1].source} in until {ms(ended[-1].until)}: ' if ended else ''


def of_dead_port(told: Told, kept: Kept, record: Record, number: int, count: int) -> str:
    """What became of a port that isn't live."""
    nat = record.node
    port, _ = kept.last_port(nat, number, count)
    if port is not None:
        return f'{nat} kept port {number} for {whose(told, nat, port.inside)} until {ms(port.until)}, and nothing renewed it'
    places = [place for place in kept.nodes[nat].ports.get(number, []) if place < count] if nat in kept.nodes else []
    if not places:
        return f'{nat} never had a port {number}: nobody sent by it'
    void = next((line for line in kept.lines[places[-1]:count] if line.node == nat and isinstance(line.what, Void)), None)
    if void is None:
        return ''
    happened = 'was restarted' if void.what == Void() else 'was told to forget whose it was'
    return f'{nat} has no port {number}: it {happened} at {ms(void.moment)}, and nothing went out by it since'


def failed(told: Told, until: Record, client: str, target: str) -> str:
    """That a send which would have opened the NAT failed."""
    found = [record for record in told.report.of_node(client, until) if any(loss.word == 'fault' and loss.target == target for loss in record.losses)]
    return f'; a send of {client} there failed {at(found[-1])}' if found else ''


def as_meant(told: Told, entry: Entry) -> str:
    content = told.report.content(entry)
    if content == 'advertisement' and told.known.is_secondary(entry.source):
        return ' (as meant: this is the test for a cone NAT)'
    return ' (as meant: a direct bubble opens the NAT of its sender)' if content == 'bubble' and entry.number not in carried(told) else ''


def carried(told: Told) -> dict[int, Load]:
    return told.followed.carried if told.followed else {}


def other_port(told: Told, kept: Kept, entry: Entry, record: Record) -> str:
    """That the sender's address says another endpoint than it is seen at."""
    maker = entry.maker
    address = kept.address(maker.node, told.first_count(maker)) if maker.fate != 'put' else None
    if address is None or teredo_parts(address).endpoint == entry.source:
        return ''
    return f'; the address of {maker.node} says {teredo_parts(address).endpoint}: its NAT has another port for it'


def takes_for_cone(told: Told, kept: Kept, record: Record, port: Port, nat: str) -> str:
    """That the client behind a port is taken for one behind a cone."""
    inside = whose(told, nat, port.inside)
    clients = [name for name in told.known.of('client') if name == inside or inside in told.known.way_out(name)]
    cones = [name for name in clients for address in [kept.address(name, told.first_count(record))] if address and teredo_parts(address).is_cone]
    return f'; the address of {cones[0]} says cone, and {nat} isn\'t' if cones else ''


# Clients without an address


def of_off(told: Told, kept: Kept, record: Record, depth: int) -> str:
    return f'{record.node} has no address: ' + unqualified(told, kept, record.node, record)


def unqualified(told: Told, kept: Kept, client: str, until: Record) -> str:
    """Why a client has no address before a record: its phase, its restart, and what became of what it asked."""
    count = told.first_count(until)
    own, known = kept.own(client, count), kept.nodes.get(client)
    voids = [place for place in known.voids if place < count] if known else []
    restart = f'it was restarted at {ms(kept.lines[voids[-1]].moment)}; ' if voids else ''
    since = kept.lines[voids[-1]].record if voids else -1
    asked = next((record for record in reversed(told.report.of_node(client, until)) if record.fate in SOLICITATIONS), None)
    if not isinstance(own, Client) or asked is None or asked.index <= since:
        return f'it was restarted at {ms(kept.lines[voids[-1]].moment)}, and has asked nobody since' if voids else 'it has asked nobody yet'
    told_of = PHASES.get(own.phase, f'it is in phase {own.phase}')
    if own.phase == 'symmetric':
        return restart + told_of + two_ports(told, client, until)
    return f'{restart}{told_of}; of its latest solicitation: {last_of(told, asked.marks[0], until)}' if asked.marks else restart + told_of


def two_ports(told: Told, client: str, until: Record) -> str:
    """The two endpoints that a client is seen at."""
    seen, records = list[str](), reversed(told.report.of_node(client, until))
    for fate in ('rs_secondary', 'rs_restricted'):
        asked = next((record for record in records if record.fate == fate and record.entries), None)
        seen[:0] = [asked.entries[0].source] if asked else []
    return ': the server sees the client at ' + ' and at '.join(seen) if len(seen) > 1 else ''


# Peers


def address_about(told: Told, record: Record) -> str | None:
    """The address that a record is about, of which `state` has no line: that which its packet is for, or came from."""
    count, entry = told.first_count(record), told.report.entry_of(record)
    if entry is None:
        target = told.target(record)
        return target if target and ':' in target else told.address_of(target, count) if target else None
    load = carried(told).get(entry.number)
    if load is not None:
        packet = told.handed_in[load.packet]
        sender, target = packet.node, told.target(packet)
        if entry.is_six:
            return address_named(told, sender if load.is_back else target, count)
        return address_named(told, target if load.is_back else sender, told.first_count(packet))
    mark: Mark = entry
    while mark.maker.delivered is not None and told.report.is_passed_on(mark):
        mark = told.report.came_by(mark.maker)
    return told.address_of(mark.maker.node, told.first_count(mark.maker))


def address_named(told: Told, name: str | None, count: int) -> str | None:
    return name if name is None or ':' in name else told.address_of(name, count)


def peer_about(told: Told, kept: Kept, record: Record) -> tuple[str, Peer | None]:
    """The peer that a record is about: its name, and what the node knew of it; of one that isn't told, the only one that was tried."""
    count, address = told.first_count(record), address_about(told, record)
    if address is not None:
        return told.name_of(address, count), kept.peer(record.node, address, count, record.moment)
    tried = [peer for peer in kept.peers(record.node, count, record.moment) if peer.tries_at(record.moment)]
    return (told.name_of(tried[0].address, count), tried[0]) if len(tried) == 1 else ('', None)


def of_barred(told: Told, kept: Kept, record: Record, depth: int) -> str:
    name, peer = peer_about(told, kept, record)
    tries = peer.tries_at(record.moment) if peer else ()
    if peer is None or not tries:
        return barred_of(told, kept, record)
    if record.moment < tries[-1] + TRY_GAP_MS:
        return f'the latest try at {name} went out {ms(record.moment - tries[-1])} before, and {ms(TRY_GAP_MS)} lie between two'
    return f'{count_of(len(tries))} at {name} got no answer, from {ms(tries[0])} on; ' + of_tries(told, kept, record.node, peer, record, depth)


def barred_of(told: Told, kept: Kept, record: Record) -> str:
    """All for whom a node is barred at a record, where nobody says which of them it is about."""
    count = kept.after(record.index)
    ends = [(told.name_of(peer.address, count), peer.barred_until(record.moment)) for peer in kept.peers(record.node, count, record.moment)]
    barred = [f'{name} until {ms(until)}' for name, until in ends if until is not None]
    more = [f'{len(barred) - NAMED_MAX} more'] if len(barred) > NAMED_MAX else []
    return f'{record.node} is barred for {" and ".join(barred[:NAMED_MAX] + more)}' if barred else ''


def count_of(tries: int) -> str:
    return '1 try' if tries == 1 else f'{tries} tries'


def try_records(told: Told, kept: Kept, node: str, peer: Peer, until: Record | None) -> list[Record]:
    """The records of the tries that are kept of a peer."""
    places = kept.nodes[node].peers.get(peer.address, []) if node in kept.nodes else []
    found, first = dict[int, Record](), min(peer.tries, default=0)
    for place in reversed(places):
        line = kept.lines[place]
        known = line.what
        if line.moment < first:
            break
        if isinstance(known, Peer) and line.record >= 0 and line.moment in known.tries and line.moment in peer.tries \
                and (until is None or line.record < until.index):
            found[line.moment] = told.report.records[line.record]  # the first line that has the try
    return list(reversed(found.values()))


def drawn_by(told: Told, record: Record) -> list[Mark]:
    """What a record sent of its own, and not because it waited or was passed on."""
    released = told.followed.marks_of(record.index) if told.followed else set()
    return [mark for mark in record.marks if mark.text not in released]


def of_tries(told: Told, kept: Kept, node: str, peer: Peer, until: Record | None, depth: int = 0) -> str:
    """What became of the try that came furthest, and of the latest where none did."""
    marks = [mark for record in try_records(told, kept, node, peer, until) for mark in drawn_by(told, record)]
    if not marks:
        return 'nothing went out for it'
    furthest = max(enumerate(marks), key=lambda one: (hops(told, one[1], until), one[0]))[1]
    return last_of(told, furthest, until, depth + 1)


def came_of(told: Told, mark: Mark, until: Record | None) -> Record | None:
    """The first delivery of a mark before a record, or None."""
    came = told.report.delivered(mark) if isinstance(mark, Entry) else []
    return next((record for record in came if until is None or record.index < until.index), None)


def next_of(told: Told, mark: Mark, until: Record | None) -> Mark | None:
    """What a delivery of a mark drew or passed on, or None; of several that which comes last."""
    record = came_of(told, mark, until)
    if record is None or fates.is_drop(record.fate):
        return None
    number = getattr(mark, 'number', None)
    if number in carried(told):  # the load goes on
        load = carried(told)[number]
        step = next((step for step in told.followed.of_record.get(record.index, []) if step.load == load), None) if told.followed else None
        return next((one for one in record.marks if step and one.text == step.mark), None)
    return next(reversed(drawn_by(told, record)), None)


def hops(told: Told, mark: Mark, until: Record | None) -> int:
    """How far a mark came: the deliveries of the chain that it drew."""
    count, drawn = 0, next_of(told, mark, until)
    while drawn is not None:
        count, drawn = count + 1, next_of(told, drawn, until)
    return count


def last_of(told: Told, mark: Mark, until: Record | None = None, depth: int = 0) -> str:
    """How the chain of what a mark drew ended, as a sentence. Deliveries from a record on don't count."""
    drawn = next_of(told, mark, until)
    while drawn is not None:
        mark, drawn = drawn, next_of(told, drawn, until)
    if not isinstance(mark, Entry):
        return of_loss(told, mark)
    record, content = came_of(told, mark, until), told.report.content(mark)
    if record is None:
        return of_undelivered(told, mark)
    if fates.is_drop(record.fate):
        place = record.node if record.node != '-' else 'nobody'
        return f'#{mark.number}, the {content}, ended at {place}, {record.fate}: {of_drop(told, record, depth + 1)}'
    return f'#{mark.number}, the {content}, came to {record.node}: {record.fate}'


def of_waiting(told: Told, record: Record) -> str:
    """Why a packet waits that began to at a record: what its node knows of the peer in the end."""
    kept, known = told.kept, told.kept.touched(record.index, record.node) if told.kept else None
    if kept is None or known is None:
        return meaning(record)
    count, now = len(kept.lines), told.report.records[-1].moment
    peer = kept.peer(record.node, known.address, count, now)
    name = told.name_of(known.address, count)
    trust = of_lost_trust(told, kept, record, known.address, name) or f'{record.node} doesn\'t trust {name} yet; '
    return trust + (f'{count_of(len(peer.tries_at(now)))} without an answer; {of_tries(told, kept, record.node, peer, None)}' if peer else f'{name} isn\'t listed')


def of_lost_trust(told: Told, kept: Kept, record: Record, address: str, name: str) -> str:
    """That the peer was trusted before a record, and for how long it was fresh."""
    peer = kept.peer(record.node, address, told.first_count(record), record.moment)
    if peer is None or peer.at is None or peer.heard is None:
        return ''
    return f'trust has expired: {name}, at {peer.at}, was heard {ms(record.moment - peer.heard)} before; '


def of_given_up(told: Told, record: Record, since: Record) -> str:
    """Why a packet that waited since a record ended at another one, which gave up."""
    kept, known = told.kept, told.kept.touched(record.index, record.node) if told.kept else None
    if kept is None or known is None:
        return meaning(record)
    name = told.name_of(known.address, told.first_count(record))
    peer = kept.peer(record.node, known.address, told.first_count(record), record.moment) or known
    return of_lost_trust(told, kept, since, known.address, name) + f'{count_of(len(peer.tries_at(record.moment)))} got no answer; ' \
        + of_tries(told, kept, record.node, peer, record)


# The rest


def of_destination(told: Told, kept: Kept, record: Record, depth: int) -> str:
    target = told.target(record)
    if target not in told.known.of('client') or kept.address(target, told.first_count(record)) is not None:
        return 'the destination is none that this node sends to'
    return f'{target} has no address, and stands for ::; ' + unqualified(told, kept, target, record)


def of_mismatch(told: Told, kept: Kept, record: Record, depth: int) -> str:
    entry = told.report.came_by(record)
    if entry.maker.fate == 'put':
        word = entry.maker.act.partition(':')[0]
        return f'{word} of event {entry.maker.event} put it there from {entry.source}, and its address embeds another endpoint'
    return f'{entry.maker.node} sent it from {entry.source}, and its source embeds another endpoint' + other_port(told, kept, entry, record)


def of_unlisted(told: Told, kept: Kept, record: Record, depth: int) -> str:
    relay, count, source = record.node, told.first_count(record), told.report.came_by(record).source
    known = kept.nodes.get(relay)
    places = [place for address, places in known.peers.items() if embeds(address, source) for place in places if place < count] if known else []
    if not places or known is None:
        return f'{relay} never had a packet for {source}: the IPv6 side has to speak first'
    voids = [place for place in known.voids if max(places) < place < count]
    if voids:
        return f'{relay} was restarted at {ms(kept.lines[voids[-1]].moment)}, and knows nothing of {source} since'
    peer = kept.lines[max(places)].what
    touched = peer.touched if isinstance(peer, Peer) else None
    return f'{relay} had nothing to do with {source} for {ms(record.moment - (touched or 0))}: it isn\'t listed any more'


def embeds(address: str, endpoint: str) -> bool:
    return address.startswith('2001:0:') and teredo_parts(address).endpoint == endpoint


def of_old_address(told: Told, kept: Kept, record: Record, depth: int) -> str:
    address = kept.address(record.node, told.first_count(record))
    return f'{record.node} has another address now, {address}' if address else ''


def of_nowhere(told: Told, kept: Kept, record: Record, depth: int) -> str:
    entry = told.report.came_by(record)
    if entry.is_six:
        return 'no native host has its destination: there is no relay that would answer'
    return f'nobody is at {entry.target}'


def of_source(told: Told, kept: Kept, record: Record, depth: int) -> str:
    if record.delivered is None:
        address = told.address_of(record.node, told.first_count(record))
        return f'its source is not the address that {record.node} has, {address}' if address else ''
    entry = told.report.came_by(record)
    if entry.is_six:
        return f'{record.node} takes nothing of the IPv6 side from a Teredo source, or from one that isn\'t global'
    return f'{record.node} takes nothing from {entry.source}, or of the packet\'s source'


def of_suspicious(told: Told, kept: Kept, record: Record, depth: int) -> str:
    name, peer = peer_about(told, kept, record)
    test = drawn_by(told, record)
    said = f'{record.node} doesn\'t trust {name or "its sender"} yet' + (f', and holds {peer.held} of its packets' if peer and peer.held else '')
    return said + (f'; the test: {last_of(told, test[0], None, depth + 1)}' if test else '')


def of_held(told: Told, record: Record) -> str:
    """Why a packet is held since a record: its sender isn't trusted yet, and what became of the latest test up to that record."""
    kept, known = told.kept, told.kept.touched(record.index, record.node) if told.kept else None
    if kept is None or known is None:
        return meaning(record)
    count, now = len(kept.lines), told.report.records[-1].moment
    peer, name = kept.peer(record.node, known.address, count, now), told.name_of(known.address, count)
    return f'{record.node} doesn\'t trust {name} yet, and holds it; ' + (of_tries(told, kept, record.node, peer, None) if peer else f'{name} isn\'t listed')
