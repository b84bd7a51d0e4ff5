"""How a client goes through the qualification procedure (RFC 4380, section 5.2.1), by what `explain` says of its datagrams.

A phase is `passed`, `failed`, `left out` (the client may) or `not due` (an earlier phase has settled it), each with a reason.
"""
import re
from dataclasses import dataclass

from networks import PRIMARY, SECONDARY

PASSED, FAILED, LEFT_OUT, NOT_DUE = 'passed', 'failed', 'left out', 'not due'
ASKED = re.compile(r'^(\d+) asked (primary|secondary) (\S+) (\w+)(.*)$', re.M)
ANSWERED = re.compile(r'^\d+ answered \S+ (?:licensed by|unlicensed near) (\d+)', re.M)
OUTPUT = re.compile(r' =([0-9.]+):')
RIGHT = ('advert', 'forward', 'forward_origin', 'six')  # the fates that are no drops


@dataclass
class Question:
    """A datagram from the client to the server."""
    record: int
    is_first: bool  # to the server's first address
    source: str  # where the server sees the client
    fate: str
    more: str  # what `explain` says behind the fate
    is_answered: bool

    @property
    def is_solicitation(self):
        return self.fate == 'advert'

    @property
    def is_cone(self):
        """With the cone bit: its answer leaves from the address that wasn't asked."""
        output = OUTPUT.search(self.more)
        return self.is_solicitation and output is not None and (output[1] == PRIMARY) != self.is_first


def questions(told):
    answered = {int(number) for number in ANSWERED.findall(told)}
    return [Question(int(number), side == 'primary', source, fate, more, int(number) in answered)
            for number, side, source, fate, more in ASKED.findall(told)]


class Phases:
    """What one client did behind a kind of NAT."""

    def __init__(self, kind, told):
        self.kind, self.asked = kind, questions(told)
        solicitations = [question for question in self.asked if question.is_solicitation]
        self.cones = [question for question in solicitations if question.is_cone]
        self.plain = [question for question in solicitations if not question.is_cone and question.is_first]
        self.seconds = [question for question in solicitations if not question.is_cone and not question.is_first]

    def is_settled(self):
        """Whether the answer to a question with the cone bit came through the NAT."""
        return self.kind.found == 'cone' and any(question.is_answered for question in self.cones)

    def cone(self):
        if not self.cones:
            return LEFT_OUT, 'no question has the cone bit'
        if not any(question.is_answered for question in self.cones):
            return FAILED, 'the server answered none'
        return PASSED, f'{count_of(self.cones)} with the cone bit; the NAT {"lets in" if self.kind.found == "cone" else "keeps out"} the answer'

    def restricted(self):
        if self.is_settled():
            return (FAILED, f'record {self.plain[0].record}: asks without the cone bit, though an answer came in') if self.plain else \
                   (NOT_DUE, 'an answer to the cone bit came in')
        if not self.plain:
            return FAILED, f'no question without the cone bit came to {PRIMARY}'
        if not any(question.is_answered for question in self.plain):
            return FAILED, 'the server answered none'
        return PASSED, f'{count_of(self.plain)} without the cone bit; the NAT lets in the answer'

    def second(self):
        if self.is_settled():
            return (FAILED, f'record {self.seconds[0].record}: asks {SECONDARY}, though an answer came in') if self.seconds else \
                   (NOT_DUE, 'an answer to the cone bit came in')
        if not self.seconds:
            return FAILED, f'no question without the cone bit came to {SECONDARY}'
        if not self.plain or self.plain[0].record > self.seconds[0].record:
            return FAILED, f'record {self.seconds[0].record}: asks {SECONDARY} before {PRIMARY}'
        seen = {question.source for question in self.plain}, {question.source for question in self.seconds}
        if self.kind.found == 'restricted' and seen[0].isdisjoint(seen[1]):
            return FAILED, f'record {self.seconds[0].record}: asks {SECONDARY} from another port of its own'
        return PASSED, f'{count_of(self.seconds)} to {SECONDARY}, seen at {min(seen[1])}, and before at {min(seen[0])}'

    def stop(self):
        if self.kind.found != 'symmetric':
            return NOT_DUE, 'the NAT is not symmetric'
        sent = [question for question in self.asked if not question.is_solicitation]
        return (FAILED, f'record {sent[0].record}: sends a packet, though it can have no address') if sent else \
               (PASSED, 'no packet came from it')

    def datagrams(self):
        wrong = [question for question in self.asked if question.fate not in RIGHT]
        if wrong:
            return FAILED, f'record {wrong[0].record}: {wrong[0].fate}{wrong[0].more}' + (f', and {len(wrong) - 1} more' if wrong[1:] else '')
        return (PASSED, f'{len(self.asked)} to the server, and each is right') if self.asked else (FAILED, 'none came to the server')

    def lines(self):
        """Each phase with its verdict and its reason."""
        named = (('cone', self.cone), ('restricted', self.restricted), ('second', self.second), ('stop', self.stop),
                 ('datagrams', self.datagrams))
        return [(name, *judged()) for name, judged in named]


def count_of(asked):
    return f'{len(asked)} question{"s" * (len(asked) != 1)}'
