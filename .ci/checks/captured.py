"""What a capture holds, and what is said of it.

Without a program: fragments in every order, again, over each other and too late; what stands behind UDP's length; checksums;
VLAN tags and PPPoE; a file that ends at any byte; the fields of an answer. With the program, by tools/capture.py: datagrams in
fragments are judged, and what nothing can be said of has a status of its own, with the reason.
"""
import io
import itertools
import os
import struct
import subprocess
import sys

import answers
import datagrams
import make
import packets
import seen

TOP = os.path.dirname(os.path.dirname(os.path.dirname(os.path.abspath(__file__))))
TOOL = os.path.join(TOP, 'tools', 'capture.py')
SERVER, SECONDARY, HOST, PORT = '192.0.2.1', '192.0.2.2', '198.51.100.7', 40000
MACS = bytes(12)
SECOND = 10 ** 9


def ip(source, destination, body, behind=b'', checksum=None, identification=7):
    """A UDP datagram, each end as an address and a port, in an IPv4 packet with this behind it."""
    pseudo = make.ip4(source[0]) + make.ip4(destination[0]) + struct.pack('>HH', datagrams.UDP, 8 + len(body))
    head = struct.pack('>HHH', source[1], destination[1], 8 + len(body))
    right = 0xffff ^ datagrams.folded(pseudo + head + b'\0\0' + body) or 0xffff
    udp = head + struct.pack('>H', right if checksum is None else checksum) + body
    return datagrams.with_length(struct.pack('>BBHHHBBH', 0x45, 0, 0, identification, 0, 64, datagrams.UDP, 0) + pseudo[:8] + udp + behind)


def asks(port=PORT, body=make.ASKS, **more):
    return ip((HOST, port), (SERVER, seen.PORT), body, **more)


def answer(port=PORT, body=None, source=SERVER):
    right = make.authentication(make.NONCE) + make.origin(f'{HOST}:{port}') + make.advertisement(SERVER, make.link_local(make.HOST))
    return ip((source, seen.PORT), (HOST, port), right if body is None else body)


def parts(packet, *cuts):
    """A packet in fragments that are cut at these bytes behind its header."""
    ends = [*cuts, len(packet) - 20]
    return [part(packet, begin, end) for begin, end in zip([0, *cuts], ends)]


def part(packet, begin, end, is_last=None):
    is_last = end == len(packet) - 20 if is_last is None else is_last
    field = begin // 8 | (0 if is_last else datagrams.MORE)
    head = packet[:2] + struct.pack('>HHH', 20 + end - begin, datagrams.word_at(packet, 4), field) + packet[8:20]
    return head + packet[20 + begin:20 + end]


def put_together(pieces, moments=None):
    """What fragments give, each at its moment, and how many of them are lost at last."""
    lost, made = [], []
    fragments = datagrams.Fragments(lambda count, number, packet: lost.append(count))
    for number, piece in enumerate(pieces):
        whole = fragments.add(number, moments[number] if moments else number, piece)
        made += [whole] if whole else []
    fragments.end()
    return made, sum(lost), fragments.size


def check_fragments():
    packet, found = asks(), []
    for order in itertools.permutations(parts(packet, 16, 40)):
        if put_together(order) != ([packet], 0, 0):
            found.append(f'in three parts: {put_together(order)}')
    first, second, third = parts(packet, 16, 40)
    cases = {
        'a part again': ([first, first, second, first, third], ([packet], 0, 0)),
        'one is missing': ([first, third], ([], 2, 0)),
        'the first alone': ([first], ([], 1, 0)),
        'one over another': ([first, part(packet, 8, 24), second, third], ([], 4, 0)),
        'two ends': ([first, part(packet, 40, 48, is_last=True), third, second], ([], 4, 0)),
        'past the end': ([third, part(packet, 40, 69) [:6] + struct.pack('>H', datagrams.MORE | 20) + bytes(60), first], ([], 3, 0)),
        'another packet between': ([first, *parts(asks(identification=9), 16), second, third], ([asks(identification=9), packet], 0, 0)),
        'an odd length': ([part(packet, 0, 20), part(packet, 16, 69)], ([packet], 0, 0)),
        'nothing in it': ([part(packet, 16, 16), first], ([], 2, 0)),
    }
    for name, (pieces, wanted) in cases.items():
        got = put_together(pieces)
        if got != wanted:
            found.append(f'{name}: {got} and not {wanted}')
    late = put_together([first, second, third], [0, SECOND, 31 * SECOND])
    return found + ([] if late == ([], 3, 0) else [f'too late: {late}'])


def check_bounds():
    """However many parts of however many packets come, little is kept, and it is quick."""
    small = [part(asks(identification=number), 0, 8) for number in range(20000)]
    fragments = datagrams.Fragments()
    for number, piece in enumerate(small):
        fragments.add(number, number, piece)
        if fragments.size > datagrams.OPEN_BYTES_MAX + 70000:
            return [f'{fragments.size} bytes are kept']
    big = asks(body=bytes(60000))
    made = put_together([part(big, at, min(at + 8, 60008)) for at in itertools.chain(range(0, 60008, 16), range(8, 60008, 16))])
    return [] if made[0] == [big] else ['7501 parts are not put together']


def check_cutting():
    packet, found = asks(), []
    for behind in (b'', b'P', bytes(1000)):
        if datagrams.trimmed(asks(behind=behind)) != packet:
            found.append(f'{len(behind)} bytes behind the length')
    for wrong in (packet[:30], packet[:24] + b'\xff\xff' + packet[26:], packet[:24] + b'\0\7' + packet[26:], packet[:9] + b'\6' + packet[10:], b''):
        if datagrams.trimmed(wrong) != wrong:
            found.append(f'{wrong.hex()} is cut')
    return found


def check_sums():
    packet, found = asks(), []
    pseudo = datagrams.folded(packet[12:20] + struct.pack('>HH', datagrams.UDP, len(packet) - 20))
    cases = ((packet, 'right'), (asks(checksum=0), 'absent'), (asks(checksum=pseudo), 'not made'), (asks(checksum=0x1234), 'wrong'))
    for tried, wanted in cases:
        if datagrams.udp_sum(tried).verdict != wanted:
            found.append(f'{datagrams.udp_sum(tried)} is not {wanted}')
    for tried, wanted in ((packet, 'right'), (packet[:10] + b'\0\0' + packet[12:], 'not made'), (packet[:10] + b'\1\1' + packet[12:], 'wrong')):
        if datagrams.header_sum(tried).verdict != wanted:
            found.append(f'the header: {datagrams.header_sum(tried)} is not {wanted}')
    return found


def check_links():
    packet = asks()
    session = b'\x88\x64\x11\0\0\1' + struct.pack('>H', len(packet) + 2)
    cases = {
        'PPPoE': (packets.ETHERNET, MACS + session + b'\0\x21' + packet), 'PPPoE in a VLAN': (packets.ETHERNET, MACS + b'\x81\0\0\5' + session + b'\0\x21' + packet),
        'a VLAN, cooked': (packets.COOKED, bytes(14) + b'\x81\0\0\5\x08\0' + packet), 'PPPoE, cooked 2': (packets.COOKED_2, b'\x88\x64' + bytes(18) + session[2:] + b'\0\x21' + packet)}
    found = [f'{name}: {packets.ip_of(link, frame)}' for name, (link, frame) in cases.items() if packets.ip_of(link, frame) != packet]
    control = packets.ip_of(packets.ETHERNET, MACS + session + b'\xc0\x21' + bytes(20))
    return found + ([] if control is None else ['a control packet of PPP is taken for IP'])


def check_torn():
    """A file that ends at any byte has its records up to there, and no more is lost."""
    found = []
    for name, data in (('pcap', classic([asks(), answer()])), ('pcapng', pcapng([asks(), answer()]))):
        for cut in range(len(data) + 1):
            whole, end = [], None
            try:
                for packet in packets.packets(io.BytesIO(data[:cut])):
                    whole.append(packet)
            except packets.Torn as fault:
                end = fault
            except packets.NoCapture as fault:
                end = fault
            size = [len(asks()) + 14, len(answer()) + 14]
            due = sum(cut >= packet_end for packet_end in ends_of(name, size))
            if len(whole) != due or (isinstance(end, packets.NoCapture) and whole):
                found.append(f'{name} cut at {cut}: {len(whole)} of {due}, {end!r}')
    return found


def ends_of(name, sizes):
    at, ends = (24, []) if name == 'pcap' else (28 + 20, [])
    for size in sizes:
        at += 16 + size if name == 'pcap' else 32 + (size + 3) // 4 * 4
        ends.append(at)
    return ends


def frame(packet):
    return MACS + b'\x08\0' + packet


def classic(made, snap=65535, link=packets.ETHERNET, wrap=frame):
    out = struct.pack('<IHHiIII', 0xa1b2c3d4, 2, 4, 0, 0, snap, link)
    for number, packet in enumerate(made):
        data = wrap(packet)
        out += struct.pack('<IIII', number, 0, len(data[:snap]), len(data)) + data[:snap]
    return out


def pcapng(made):
    def block(kind, body):
        body += bytes(-len(body) % 4)
        size = struct.pack('<I', len(body) + 12)
        return struct.pack('<I', kind) + size + body + size
    out = block(packets.SECTION, struct.pack('<IHHq', packets.ORDER_MARK, 1, 0, -1)) + block(packets.INTERFACE, struct.pack('<HHI', packets.ETHERNET, 0, 0))
    for number, packet in enumerate(made):
        data = frame(packet)
        out += block(packets.ENHANCED, struct.pack('<IIIII', 0, 0, number, len(data), len(data)) + data)
    return out


def changed(payload, name, by=1):
    """A payload with another value in the field of this name."""
    end = next(end for field, _, end in answers.fields(payload) if field == name)
    return payload[:end - 1] + bytes([payload[end - 1] ^ by]) + payload[end:]


def check_fields():
    drawn, found = datagrams.datagram_of(answer()).body, []
    named = [name for name, _, _ in answers.fields(drawn)]
    if answers.fields(drawn)[-1][2] != len(drawn) or 'body' in named:
        found.append(f'not all is named: {answers.fields(drawn)}')
    for name in ('nonce', 'origin', 'hop', 'source', 'hop_limit', 'flags', 'lifetime', 'reachable', 'retrans', 'valid', 'prefix', 'mtu'):
        said = changed(changed(drawn, name), 'checksum')
        told = answers.difference(said, drawn)
        if not told.startswith(f'{name} at ') or 'checksum' in told:
            found.append(f'{name}: {told}')
    alone = answers.difference(changed(drawn, 'checksum'), drawn)
    return found + ([] if alone == 'checksum at 64 alone' else [f'the checksum alone: {alone}'])


UNITS = (check_fragments, check_bounds, check_cutting, check_sums, check_links, check_torn, check_fields)


def judged(program, folder, word, data, *pair):
    path = os.path.join(folder, 'own.pcap')
    with open(path, 'wb') as file:
        file.write(data)
    done = subprocess.run([sys.executable, '-B', TOOL, '--judge', word, *(pair or (SERVER, SECONDARY)), '--program', program, '--', path],
                          capture_output=True, text=True, timeout=60)
    return done.returncode, done.stdout, done.stderr.replace(path, 'FILE')


WRONG = changed(datagrams.datagram_of(answer()).body, 'retrans')
DROPPED = make.authentication('0102030405060709') + make.solicitation(make.HOST, wrong_by=1)
TO_DROPPED = make.authentication('0102030405060709') + datagrams.datagram_of(answer()).body[13:]
BOTH, SPLIT = [asks(), answer()], [*parts(asks(41000), 24), answer(41000)]
NOT_MADE = datagrams.folded(asks()[12:20] + struct.pack('>HH', datagrams.UDP, len(asks()) - 20))
# By name: the word, the file, its status, what stands on standard output, and what on standard error.
CASES = {
    'Ethernet': ('audit', classic(BOTH), 0, 'clean packets 2 to 1 from 1 skipped 0\n', ('2 of Ethernet',)),
    'fragments': ('audit', classic(SPLIT), 0, 'clean packets 3 to 1 from 1 skipped 1\n', ('1 packets put together',)),
    'fragments, explained': ('explain', classic(SPLIT), 0, '1 asked primary 198.51.100.7:41000 advert =', ()),
    'behind the length': ('audit', classic([asks(behind=b'PAD'), answer()]), 0, 'clean packets 2 to 1 from 1 skipped 0\n', ('1 datagrams cut',)),
    'the first fragment alone': ('audit', classic([*BOTH, SPLIT[0], SPLIT[2]]), 13, 'unlicensed 3\n', ('1 fragments of packets', 'Record 3 may be an honest answer: before it record 2,')),
    'a stray fragment': ('audit', classic([*BOTH, SPLIT[0]]), 0, 'clean packets 3 to 1 from 1 skipped 1\n', ('1 fragments of packets',)),
    'questions alone': ('audit', classic([asks()]), 13, 'clean packets 1 to 1 from 0 skipped 0\n', ('nothing was judged', 'captured in one direction')),
    'answers alone': ('audit', classic([answer()]), 13, 'unlicensed 0\n', ('nothing was judged', '1 from it and none to it')),
    'no packets': ('audit', classic([]), 13, 'clean packets 0 to 0 from 0 skipped 0\n', ('nothing was judged', 'are these its addresses?')),
    'no packets, explained': ('explain', classic([]), 13, 'total packets 0 ', ('nothing was judged',)),
    'nothing': ('audit', b'', 11, 'capture cut at 0\n', ('nothing was judged: the file is empty',)),
    'no capture': ('explain', b'a text, and no capture', 11, 'capture cut at 0\n', ('nothing was judged: the file ends in the middle of the head',)),
    'another magic': ('audit', bytes(100), 11, 'capture magic\n', ('nothing was judged: the file is neither pcap nor pcapng',)),
    'another version': ('audit', classic([])[:4] + b'\3' + classic([])[5:], 11, 'capture version\n', ('nothing was judged: the file is of version 3.4',)),
    'another link': ('explain', classic(BOTH, link=147), 11, 'capture link\n', ('type 147',)),
    'too large': ('explain', classic([asks()], link=packets.RAW, wrap=lambda packet: packet) + struct.pack('<IIII', 0, 0, 65536, 65536) + b'\x60' + bytes(65535),
                  11, '0 asked primary 198.51.100.7:40000 advert =192.0.2.1:3544>198.51.100.7:40000/117\ncapture big at 129\n', ()),
    'torn': ('audit', classic([*BOTH, asks()])[:-9], 0, 'clean packets 2 to 1 from 1 skipped 0\n', ('FILE: the file is torn',)),
    'torn, of raw IP': ('audit', classic([*BOTH, asks()], link=packets.RAW, wrap=lambda packet: packet)[:-9], 0, 'clean packets 2 to 1 from 1 skipped 0\n', ('torn',)),
    'cut short': ('audit', classic([*BOTH, ip((HOST, 1), (SERVER, 3544), b'')], snap=96), 13, 'clean packets 3 to 1 from 0 skipped 2\n', ('2 cut short',)),
    'cut short, beside others': ('audit', classic([*BOTH, asks(body=bytes(1000))], snap=200), 13, 'clean packets 3 to 1 from 1 skipped 1\n', ('not all was judged. 1 of 3 packets', '1 of them')),
    'a wrong checksum': ('explain', classic([*BOTH, asks(41001, checksum=0x1234)]), 0, '2 asked primary 198.51.100.7:41001 advert', ('record 2: the UDP checksum is 1234', 'gave this datagram to nobody')),
    'a wrong one that is answered': ('explain', classic([asks(checksum=0x1234), answer()]), 0, '1 answered 198.51.100.7:40000 licensed by 0', ('before a card', 'no verdict')),
    'checksums that are not made': ('explain', classic([asks(checksum=NOT_MADE), answer()]), 0, 'total packets 2', ('1 of 1 datagrams to the server have a checksum that is not made yet',)),
    'another timer': ('audit', classic([asks(), answer(body=WRONG)]), 10, 'unlicensed 1\n', ('record 1 answers record 0, and differs in retrans at 76 (1, and the table draws 0)',)),
    'an answer to what is dropped': ('explain', classic([*BOTH, asks(body=DROPPED), answer(body=TO_DROPPED)]), 10, '3 answered 198.51.100.7:40000 unlicensed near 0 at 11\n',
                                     ('record 3 answers record 2, which the table drops: icmp sum said',)),
    'an answer to nothing': ('audit', classic([*BOTH, answer(41002)]), 10, 'unlicensed 2\n', ('record 2: no datagram before it asks for this answer',)),
    'from the other address': ('audit', classic([asks(), answer(source=SECONDARY)]), 10, 'unlicensed 1\n', ('by 117 bytes from 192.0.2.2, and the table draws 117 bytes from 192.0.2.1',)),
}
PAIRS = {
    'other addresses': ('audit', classic(BOTH), 13, 'clean packets 2 to 0 from 0 skipped 2\n', ('are these its addresses? Datagrams of port 3544 are there at 192.0.2.1 (2)',), '203.0.113.1', '203.0.113.2'),
    'exchanged addresses': ('audit', classic(BOTH), 10, 'unlicensed 1\n', ('whose primary address is 192.0.2.1, as if the two addresses were exchanged',), SECONDARY, SERVER),
}


def checks(program, folder):
    """Each check by its name, with what it found."""
    for check in UNITS:
        yield check.__name__, check()
    for name, (word, data, status, written, said, *pair) in {**CASES, **PAIRS}.items():
        got = judged(program, folder, word, data, *pair)
        is_right = got[0] == status and written in got[1] and (got[1] == written or word == 'explain') and all(text in got[2] for text in said)
        yield name, [] if is_right else [f'{got}, and not {(status, written, said)}']


def check_units():
    """What needs no program."""
    return [f'{check.__name__}: {text}' for check in UNITS for text in check()]
