#!/usr/bin/env python3
"""A capture as other tools write it: converted for `audit` and `explain`, or judged as they do.

  capture FILE --to OUT                             makes a capture that `audit` and `explain` read
  capture FILE --judge audit|explain IP1 IP2        asks the program about the converted capture

FILE is pcap or pcapng, of Ethernet with or without VLAN tags and PPPoE, Linux cooked in both forms, BSD loopback, or raw IP.
OUT is classic pcap of raw IP. Each packet keeps its number and its moment: one that isn't IP becomes an empty record, so that
what is said of record I is said of the user's own packet I, counted from 0 (Wireshark counts from 1). What a system does
before a server gets its datagram is done here: fragments are put together, in the record of the last of them, and what follows
UDP's length is cut off. Standard error says what was converted and what was left out.

With --judge the lines and the status are those of the program on the converted capture. Standard error adds why an answer isn't
licensed, and which checksums are wrong. Status 13 says that there is no verdict: nothing to or from the server is there whole,
packets of it were cut short, or what isn't licensed may answer what isn't whole. A file above 96 MiB goes in pieces. Each begins
--overlap seconds before the end of the one before, so that an answer finds its question; what is said of repeated packets is left
out.
"""
import collections
import os
import re
import shutil
import struct
import subprocess
import sys
import tempfile

sys.dont_write_bytecode = True

import answers
import command
import datagrams
import packets
import seen
from pieces import HEAD, PIECE_BYTES, SNAP, Record, Sums, new_lines, pieces, write_piece

OVERLAP_SECONDS = 10.0
CLEAN, UNLICENSED, NO_CAPTURE, NOT_JUDGED = 0, 10, 11, 13
COUNTS = re.compile(r'(?:clean packets \d+ to (\d+) from (\d+) )|(?:total packets \d+ asked (\d+) answered (\d+) )')


class Told:
    """What was converted and what was left out, and the fault at which the file ends to be one."""

    def __init__(self):
        self.links, self.left_out, self.fault = collections.Counter(), collections.Counter(), None

    def say(self, path):
        kinds = [f'{count} of {packets.LINK_NAMES[link]}' for link, count in sorted(self.links.items())]
        if self.links and (self.left_out or set(self.links) != {packets.RAW}):
            say(path, [f'packets: {", ".join(kinds)}'])
        say(path, [reason if count is None else f'{count} {reason}' for reason, count in self.left_out.items()])


def say(path, lines):
    for line in lines:
        print(f'capture.py: {path}: {line}', file=sys.stderr)


class Conversion:
    """The records of the packets that come, in order."""

    def __init__(self, told, found):
        self.told, self.found, self.number = told, found, 0
        self.fragments = datagrams.Fragments(self.lost)

    def lost(self, count, number, packet):
        self.told.left_out['fragments of packets that are not whole here, which are judged as none: a filter on the port leaves out '
                           'all but the first one'] += count
        self.found.see_unwhole(number, packet)

    def ip_of(self, number, packet):
        """The IP packet of a packet, as the system takes it; nothing where there is none."""
        self.number = number
        data = packets.ip_of(packet.link, packet.data)
        if data is None or data[0] >> 4 != 4:
            self.told.left_out['not IP: an empty record each' if data is None else 'not IPv4, which are judged as none'] += 1
            return data or b''
        if packet.length > len(packet.data) and datagrams.word_at(data + bytes(4), 2) > len(data):
            self.told.left_out['cut short when they were captured: take whole packets, as tcpdump -s 0 does'] += 1
            self.found.see_cut(number, data)
            return data
        return self.together(packet.nanoseconds, data) if datagrams.is_fragment(data) else self.whole(data)

    def together(self, nanoseconds, data):
        made = self.fragments.add(self.number, nanoseconds, data)
        if made is None:
            return data
        self.told.left_out['packets put together from their fragments, each in the record of the last one'] += 1
        return self.whole(made)

    def whole(self, data):
        self.found.see(self.number, data)
        made = datagrams.trimmed(data)
        if made is not data:
            self.told.left_out['datagrams cut at the length that UDP says, as the system does'] += 1
        return made

    def record(self, number, packet):
        if packet.link not in packets.LINK_NAMES:
            raise packets.NoCapture(f'has packet {number} from a link of type {packet.link}, which this tool does not know', 'link')
        self.told.links[packet.link] += 1
        data = self.ip_of(number, packet)
        if len(data) > SNAP:
            raise packets.NoCapture(f'has packet {number} of {len(data)} bytes, more than an IPv4 packet may have', f'big at {packet.place}')
        seconds, fraction = divmod(packet.nanoseconds, 10 ** 9)
        return Record(number, packet.nanoseconds, struct.pack('<IIII', seconds & 0xffffffff, fraction, len(data), len(data)) + data)


def records(path, told, found):
    """The records of a file up to its end, or up to where it is no capture any more."""
    conversion = Conversion(told, found)
    try:
        with open(path, 'rb') as file:
            for number, packet in enumerate(packets.packets(file)):
                yield conversion.record(number, packet)
    except OSError as fault:
        raise command.Refusal(f'{path}: {fault.strerror}', command.UNREADABLE) from None
    except packets.Torn as fault:
        told.left_out[f'the file is torn: {fault}. That record is left out'] = None
    except packets.NoCapture as fault:
        told.fault = fault
    conversion.fragments.end()


def convert(path, out):
    told = Told()
    try:
        with open(out, 'xb') as file:
            file.write(HEAD)
            for record in records(path, told, seen.Seen(())):
                file.write(record.data)
    except FileExistsError:
        raise command.Refusal(f'{out}: is there already', command.UNREADABLE) from None
    except OSError as fault:
        raise command.Refusal(f'{out}: {fault.strerror}', command.UNREADABLE) from None
    told.say(path)
    if told.fault:
        os.remove(out)
        raise command.Refusal(f'{path}: {told.fault}', NO_CAPTURE)
    return 0


class Judge:
    """One question about a capture: what the program says of it, and what is said beside."""

    def __init__(self, path, name, word, servers, program):
        self.path, self.name, self.word, self.servers, self.program = path, name, word, servers, program
        self.told, self.found, self.count = Told(), seen.Seen(servers, word == 'explain'), 0
        self.heard = seen.Heard(self.found)

    def lines_of(self, word, file):
        """What the program writes of a file, line by line."""
        try:
            asked = subprocess.Popen([self.program, word, *self.servers, file], stdin=subprocess.DEVNULL, stdout=subprocess.PIPE,
                                     stderr=subprocess.PIPE, env={**os.environ, 'TEREDO_QUIET': '1'}, text=True, errors='replace')
        except OSError as fault:
            raise command.Refusal(f'{self.program}: {fault.strerror}', command.UNREADABLE) from None
        with asked:
            for line in asked.stdout:
                yield line.rstrip('\n')
            said = asked.stderr.read().strip()
        if asked.returncode not in (CLEAN, UNLICENSED):
            raise command.Refusal(f'{self.name}: {said or "the program ended"} (status {asked.returncode})', asked.returncode)

    def heard_lines(self, file):
        """The lines of `explain`, each of which is heard; the line of totals too."""
        for line in self.lines_of('explain', file):
            number, _, what = line.partition(' ')
            if number.isdigit():
                self.heard.hear(int(number), what)
            yield line

    def whole(self, file):
        """Judges a capture in one piece; the line that has its counts."""
        last = ''
        if self.told.fault is None and self.word == 'audit':
            for last in self.lines_of('audit', file):
                print(last)
            if last.startswith('clean'):
                return last
            return collections.deque(self.heard_lines(file), 1).pop()
        for last in self.heard_lines(file) if self.word == 'explain' and (self.count or not self.told.fault) else ():
            if self.told.fault is None or not last.startswith('total '):
                print(last)
        return last

    def in_pieces(self, piece, new_from, is_last, sums, licences):
        """Judges a piece of several."""
        first = piece[0].number if piece else 0
        with tempfile.NamedTemporaryFile(suffix='.pcap') as file:
            write_piece(file, piece, {number for number, by in licences.items() if by < first})
            say(self.name, [f'records {first} to {piece[-1].number}, of which those from {new_from} on are new'])
            for number, what in new_lines(self.lines_of('explain', file.name), first, new_from, licences):
                sums.add(number, what)
                self.heard.hear(number, what)
                if self.word == 'explain':
                    print(number, what)
        if not is_last:
            return ''
        total = sums.total(self.count)
        if not self.told.fault:
            print(total if self.word == 'explain' else sums.verdict(self.count))
        return total

    def run(self, overlap, most):
        sums, licences, total = Sums(), {}, ''
        for piece, new_from, is_last in pieces(records(self.path, self.told, self.found), overlap, most):
            self.count = piece[-1].number + 1 if piece else 0
            if not is_last or new_from:
                total = self.in_pieces(piece, new_from, is_last, sums, licences)
                continue
            with tempfile.NamedTemporaryFile(suffix='.pcap') as file:
                write_piece(file, piece)
                total = self.whole(file.name)
        return self.end(total)

    def end(self, total):
        """What is said beside the program's lines, and the status."""
        sys.stdout.flush()
        self.told.say(self.name)
        if self.told.fault:
            print(f'capture {self.told.fault.line}')
            say(self.name, [f'nothing was judged: the file {self.told.fault}'])
            return NO_CAPTURE
        if self.word == 'explain':
            say(self.name, seen.checksum_lines(self.found, self.heard))
        return self.verdict(*counts_of(total))

    def verdict(self, asked, answered):
        if not asked or not answered:
            say(self.name, [seen.nothing_judged(self.found, asked, answered)])
            return NOT_JUDGED
        say(self.name, seen.cut_lines(self.found, self.count))
        if not self.heard.unlicensed:
            return NOT_JUDGED if self.found.cut else CLEAN
        return self.doubt() if self.heard.is_all_in_doubt() else self.unlicensed()

    def doubt(self):
        number, end, _ = self.heard.unlicensed[0]
        before = self.found.unwhole_from(end, number)
        asked = f'record {before}, which came from there,' if before >= 0 else 'more than can be kept'
        say(self.name, [f'there is no verdict. Record {number} may be an honest answer: before it {asked} is not whole in this capture. '
                        f'So it is with all {len(self.heard.unlicensed)} that are unlicensed'])
        return NOT_JUDGED

    def unlicensed(self):
        found, most = self.heard.unlicensed, seen.REASONED_MAX
        again = records(self.path, Told(), seen.Seen(self.servers))
        reasons = answers.reasons(again, answers.Table(self.program, self.servers), found[:most])
        say(self.name, reasons + seen.more(len(found), most, 'are unlicensed'))
        return UNLICENSED


def counts_of(total):
    """How many datagrams to the server and from it a line of the program counts."""
    found = COUNTS.match(total)
    return tuple(int(count) for count in found.groups() if count is not None) if found else (0, 0)


def judge(path, word, servers, overlap, program, most=PIECE_BYTES):
    """Judges a file. What comes by a pipe is kept meanwhile, as it is read twice."""
    if os.path.isfile(path) or not os.path.exists(path):
        return Judge(path, path, word, servers, program).run(overlap, most)
    with tempfile.NamedTemporaryFile(suffix='.pcap') as kept:
        with open(path, 'rb') as pipe:
            shutil.copyfileobj(pipe, kept)
        kept.flush()
        return Judge(kept.name, path, word, servers, program).run(overlap, most)


def main():
    parser = command.with_program(command.words(__doc__))
    parser.add_argument('file', metavar='FILE')
    does = parser.add_mutually_exclusive_group(required=True)
    does.add_argument('--to', metavar='OUT', help='write the converted capture to this new file')
    does.add_argument('--judge', nargs=3, metavar=('audit|explain', 'IP1', 'IP2'), help='ask the program about it')
    parser.add_argument('--overlap', metavar='SECONDS', type=float, default=OVERLAP_SECONDS,
                        help=f'where it goes in pieces: how much of a piece the next one repeats; {OVERLAP_SECONDS:g} where it is not said')
    options = parser.parse_args()
    if options.overlap < 0 or options.overlap != options.overlap:
        parser.error('--overlap: a number of seconds, 0 or more')
    if options.to:
        return convert(options.file, options.to)
    word, *servers = options.judge
    if word not in ('audit', 'explain'):
        parser.error(f'--judge: {word} is neither audit nor explain')
    return judge(options.file, word, servers, options.overlap, command.built(options.program))


if __name__ == '__main__':
    command.run(main)
