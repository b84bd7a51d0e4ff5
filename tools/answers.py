"""Why an answer of a Teredo server isn't licensed: which datagram it answers, and in which field it differs from what the
server's table draws. The table is asked of the program: a scenario in which a stranger sends the datagram has its answer."""
import collections
import io
import ipaddress
import re
import subprocess
import tempfile

import datagrams
import packets
import pieces
import seen

KEPT = 4096  # datagrams to the server before an answer, among which its question is looked for
AUTHENTICATION, ORIGIN = b'\0\1', b'\0\0'
ORIGIN_BYTES, NONCE_BYTES, HEADER_BYTES = 8, 8, 40
ICMP, ADVERTISEMENT = 58, 134
FIELDS = (  # of an IPv6 header: its name and how many bytes it has
    ('class_and_flow', 4), ('length', 2), ('next', 1), ('hop', 1), ('source', 16), ('destination', 16))
ADVERT_FIELDS = (  # RFC 4861, section 4.2
    ('type', 1), ('code', 1), ('checksum', 2), ('hop_limit', 1), ('flags', 1), ('lifetime', 2), ('reachable', 4), ('retrans', 4))
OPTIONS = {  # RFC 4861, sections 4.6.2 and 4.6.4
    3: (('option', 1), ('option_length', 1), ('prefix_length', 1), ('prefix_flags', 1), ('valid', 4), ('preferred', 4), ('reserved', 4), ('prefix', 16)),
    5: (('option', 1), ('option_length', 1), ('reserved', 2), ('mtu', 4))}
SCENARIO = '''seed = 1
events = ["stranger {source} {to}:3544 {payload}", "deliver 0"]
[[server]]
name = "s1"
primary = "{primary}"
secondary = "{secondary}"
'''

Asked = collections.namedtuple('Asked', 'number packet datagram')


def head_fields(payload):
    """The fields before the packet, and where that begins."""
    found, at = [], 0
    if payload[:2] == AUTHENTICATION and len(payload) >= 4:
        keys = payload[2] + payload[3]
        found += [('authentication', 0, 4 + keys), ('nonce', 4 + keys, 4 + keys + NONCE_BYTES), ('confirmation', 4 + keys + NONCE_BYTES, 5 + keys + NONCE_BYTES)]
        at = found[-1][2]
    if payload[at:at + 2] == ORIGIN:
        found += [('origin', at, at + ORIGIN_BYTES)]
        at += ORIGIN_BYTES
    return found, at


def fields(payload):
    """The fields of a payload in order, each with its name, its begin and its end; what has no name here is `body`."""
    found, at = head_fields(payload)
    is_advert = payload[at + 6:at + 7] == bytes([ICMP]) and payload[at + HEADER_BYTES:at + HEADER_BYTES + 1] == bytes([ADVERTISEMENT])
    for name, size in FIELDS + (ADVERT_FIELDS if is_advert else ()):
        found.append((name, at, at + size))
        at += size
    while is_advert and payload[at:at + 1] and payload[at] in OPTIONS:
        for name, size in OPTIONS[payload[at]]:
            found.append((name, at, at + size))
            at += size
    return [field for field in found if field[2] <= len(payload)] + ([('body', at, len(payload))] if at < len(payload) else [])


def shown(name, data):
    if name in ('source', 'destination', 'prefix'):
        return str(ipaddress.IPv6Address(data))
    if name == 'origin':
        port, address = (int.from_bytes(data[at:end], 'big') for at, end in ((2, 4), (4, 8)))
        return f'{ipaddress.IPv4Address(address ^ 0xffffffff)}:{port ^ 0xffff}'
    return data.hex() if name in ('nonce', 'checksum', 'flags', 'prefix_flags', 'class_and_flow') or len(data) > 4 else str(int.from_bytes(data, 'big'))


def difference(said, drawn):
    """In which fields an answer differs from what is drawn, the checksum last, as that follows from the others."""
    differing = [(name, begin, end) for name, begin, end in fields(drawn) if said[begin:end] != drawn[begin:end]]
    places = [next(at for at in range(begin, end) if said[at] != drawn[at]) for _, begin, end in differing]
    told = [f'{name} at {at} ({shown(name, said[begin:end])}, and the table draws {shown(name, drawn[begin:end])})'
            for (name, begin, end), at in zip(differing, places) if name != 'checksum']
    return ', '.join(told or [f'{name} at {at} alone' for (name, *_), at in zip(differing, places)])


def nonce_of(payload):
    return next((payload[begin:end] for name, begin, end in head_fields(payload)[0] if name == 'nonce'), None)


def is_advertisement(payload):
    at = head_fields(payload)[1]
    return payload[at + 6:at + 7] == bytes([ICMP]) and payload[at + HEADER_BYTES:at + HEADER_BYTES + 1] == bytes([ADVERTISEMENT])


def question_of(answer, asked):
    """The latest datagram to the server that an answer belongs to: of an advertisement the one from there with its nonce, else
    one that brought the packet; None where there is none."""
    body = answer.body
    if is_advertisement(body):
        end, nonce = (answer.destination, answer.to_port), nonce_of(body)
        belongs = [one for one in asked if (one.datagram.source, one.datagram.from_port) == end and nonce_of(one.datagram.body) == nonce]
    else:
        packet = body[head_fields(body)[1]:]
        belongs = [one for one in asked if packet and one.datagram.body.endswith(packet)]
    return belongs[-1] if belongs else None


class Table:
    """The server's table, asked of the program."""

    def __init__(self, program, servers):
        self.program, self.servers = program, servers

    def run(self, *words, **given):
        return subprocess.run([self.program, *words], stdin=subprocess.DEVNULL, stdout=subprocess.PIPE, stderr=subprocess.DEVNULL, check=False, **given)

    def fate(self, one):
        """What `explain` says of this datagram alone, behind SRC."""
        with tempfile.NamedTemporaryFile(suffix='.pcap') as file:
            pieces.write_piece(file, [pieces.Record(0, 0, record_of(one.packet))])
            told = self.run('explain', *self.servers, file.name, text=True).stdout
        found = re.match(r'0 asked \w+ \S+ (.*)', told)
        return found[1] if found else ''

    def drawn(self, one):
        """The datagram that it draws, or None."""
        text = SCENARIO.format(source=f'{one.datagram.source}:{one.datagram.from_port}', to=one.datagram.destination,
                               payload=one.datagram.body.hex(), primary=self.servers[0], secondary=self.servers[1])
        with tempfile.NamedTemporaryFile('w', suffix='.toml') as file:
            file.write(text)
            file.flush()
            written = self.run('wire', file.name).stdout
        try:
            sent = [packet.data for packet in packets.packets(io.BytesIO(written))]
        except (packets.NoCapture, packets.Torn):
            return None
        return datagrams.datagram_of(sent[1]) if len(sent) > 1 else None


def record_of(packet):
    return bytes(8) + len(packet).to_bytes(4, 'little') * 2 + packet


def reason(table, answer, asked, near):
    """Why an answer isn't licensed, by the datagrams to the server before it, of which `explain` calls one near to it: the one
    that it belongs to, or None, and the rest of the sentence."""
    one = question_of(answer, asked) or next((one for one in asked if one.number == near), None)
    if one is None:
        return None, 'no datagram before it asks for this answer'
    fate = table.fate(one)
    if fate and ' =' not in f' {fate}':
        return one, f', which the table drops: {fate}'
    drawn = table.drawn(one)
    if drawn is None:
        return one, f', which draws {fate.rpartition("=")[2]}'
    if drawn == answer:
        return one, ', as the table does, and not in its turn: the same came before it, unasked or again'
    said, wanted = (f'{len(datagram.body)} bytes from {datagram.source}' for datagram in (answer, drawn))
    if said != wanted:
        return one, f' by {said}, and the table draws {wanted}'
    if Table(table.program, table.servers[::-1]).drawn(one) == answer:
        return one, f' as a server does whose primary address is {table.servers[1]}, as if the two addresses were exchanged'
    return one, f', and differs in {difference(answer.body, drawn.body)}'


def reasons(all_records, table, unlicensed):
    """Why each of some answers isn't licensed, which `explain` calls so, from the records of the capture: a line for each reason,
    with the first answer of which it is so."""
    wanted = {number: int(rest[1]) if rest[:1] == ['near'] else None for number, _, rest in unlicensed}
    asked, found = collections.deque(maxlen=KEPT), {}
    for record in all_records:
        datagram = datagrams.datagram_of(record.data[16:])
        if record.number in wanted and datagram is not None:
            one, text = reason(table, datagram, asked, wanted[record.number])
            found.setdefault(text, []).append((record.number, one))
        if datagram is not None and datagram.to_port == seen.PORT and datagram.destination in table.servers:
            asked.append(Asked(record.number, record.data[16:], datagram))
        if record.number >= max(wanted):
            break
    return [told(*records[0], text) + (f'. So it is with {len(records) - 1} more' if records[1:] else '') for text, records in found.items()]


def told(number, one, text):
    return f'record {number}: {text}' if one is None else f'record {number} answers record {one.number}{text}'
