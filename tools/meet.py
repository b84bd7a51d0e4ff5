#!/usr/bin/env python3
"""The word of `reach` for two real machines: what becomes of the next packet from one to the other, each way, what that means and
what would change it. LINE is the line that `qualify` wrote on a machine, in quotes, or a file with that line in it.

  ./teredo meet a.txt b.txt
  ./teredo meet 'qualified 2001:0:c000:201:0:fbff:39cc:9bfe sent 5 failed 0' 'symmetric sent 5 failed 0'

The first two lines have the words; `a` is the machine of the first LINE, `b` that of the second one. No program is asked, and
nothing of the answer is proved.
"""
import ipaddress
import os
import re
import sys
from dataclasses import dataclass

sys.dont_write_bytecode = True

import command
import matrix
import report

PAGE = 'docs/REACH.md, "Two real machines"'
STANDARD_INPUT = '-'
TEREDO = ipaddress.IPv6Network('2001::/32')  # RFC 4380, section 2.6
COUNT = '(?:0|[1-9][0-9]*)'
ANSWER = re.compile(f'(?:qualified ([0-9a-f:]+)|(symmetric|offline|undecided)) sent {COUNT} failed {COUNT}')
SHOWN_MAX = 60  # characters of what is no such line
WANTED = ('The words are those of `reach` for two clients in the place of these two that don\'t know each other yet; nothing of this is proved. They '
          'want that each line is of a socket that had asked nobody before, that both servers told the truth, that no NAT was restarted, forgot or '
          f'timed out since, and that each does as one of the four kinds: {PAGE}')


@dataclass(frozen=True)
class Answer:
    """What `qualify` found on a machine: an address, or the word why there is none."""
    address: str = None
    reason: str = None

    @property
    def parts(self):
        return report.teredo_parts(self.address)

    @property
    def mapped(self):
        """The IPv4 address that the address embeds: that of the outermost NAT."""
        return self.parts.endpoint.rpartition(':')[0]

    def __str__(self):
        if self.address is None:
            return f'{self.reason}, without an address: docs/GUIDE.md, "This machine\'s own NAT", says what to do'
        bit = 'with the cone bit' if self.parts.is_cone else 'without the cone bit'
        return f'{self.address}, of the server {self.parts.server}, seen at {self.parts.endpoint}, {bit}'


def is_address(text):
    """Whether this is a Teredo address in its one spelling (RFC 5952, section 4)."""
    try:
        address = ipaddress.IPv6Address(text)
    except ValueError:
        return False
    return address in TEREDO and str(address) == text


def answer_of(line):
    """What a line of `qualify` says, or None where it is none."""
    read = ANSWER.fullmatch(line)
    if read is None or read[1] is not None and not is_address(read[1]):
        return None
    return Answer(read[1], read[2])


def line_of(word):
    """The line that a word is, or that is in the file of this name."""
    if word != STANDARD_INPUT and not os.path.exists(word):
        return word.strip()
    try:
        return command.read(word).strip()
    except command.Refusal as fault:  # what is no text has no line
        raise command.Refusal(str(fault), command.WRONG_WORDS if fault.status == command.FOUND else fault.status) from None


def answer_in(word):
    line = line_of(word)
    answer = answer_of(line)
    if answer is None:
        raise command.Refusal(f'neither a line that qualify wrote nor a file with one: "{line[:SHOWN_MAX]}"', command.WRONG_WORDS)
    return answer


def word_of(sender, receiver):
    """The word from one to the other: the first that holds, as docs/REACH.md has them."""
    if sender.address is None:
        return 'off'
    if receiver.address is None:
        return 'away'
    if sender.address == receiver.address:
        return 'self'
    if sender.mapped == receiver.mapped:
        return 'one_nat'
    if receiver.parts.is_cone:
        return 'within 1'
    return 'within 4' if sender.parts.is_cone else 'within 5'


def lines_of(a, b):
    """The words, the two answers taken apart, and of each word what it means and what would change it."""
    words = {f'a b {word_of(a, b)}': word_of(a, b), f'b a {word_of(b, a)}': word_of(b, a)}
    told, changes = matrix.told(), matrix.changes()
    yield from (*words, '', f'a: {a}', f'b: {b}', '')
    said = dict.fromkeys(words.values())
    yield from (f'{word}: {told[word]}' for word in said)
    for change in dict.fromkeys(changes[word] for word in said if word in changes):
        yield f'what would change {" and ".join(word for word in said if changes.get(word) == change)}: {change}'
    yield from ('', WANTED)


def main():
    parser = command.words(__doc__)
    parser.add_argument('lines', metavar='LINE', nargs=2, help='a line of `qualify`, or the name of a file that has it; - is standard input')
    words = parser.parse_args().lines
    if words.count(STANDARD_INPUT) > 1:
        parser.error('standard input has the line of one machine')
    command.show(lines_of(*map(answer_in, words)))
    return 0


if __name__ == '__main__':
    command.run(main)
