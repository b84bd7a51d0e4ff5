"""What `reach` says of a scenario: a word for each two hosts, on the next packet from the one to the other.

docs/REACH.md has the words. Who asks gets no answer where the program isn't built, or doesn't know `reach`.
"""
import os
import re
import tempfile

import chains
import command
import fates
import probes

WITHIN = ('within 1', 'within 2', *(f'within {count}' for count in range(4, 14)))
SHUT = ('off', 'away', 'self', 'moved', 'one_nat', 'full', 'stale', 'barred')
UNSAID = ('lost', 'known')
ASKED_MAX = 64  # moments of a scenario
EVENTS_MAX = 1000  # of a scenario whose moments are asked for

Words = dict[tuple[str, str], str]  # of each two hosts


def chain_for(text: str, chain: str | None = None) -> str:
    """The CHAIN of `reach` where none is named: the one that the scenario says, or none."""
    said = chains.chain_of(text) if chain is None else chain
    return '-' if said is None else said


def answer(program: str, text: str, chain: str | None = None) -> tuple[int, list[str]]:
    """The status of `reach` on a scenario's text, and its lines."""
    with tempfile.NamedTemporaryFile('w', suffix='.toml', encoding='utf-8') as file:
        file.write(text)
        file.flush()
        status, written = command.call(program, 'reach', file.name, chain_for(text, chain), is_quiet=True)
    return status, written.decode('utf-8', 'replace').splitlines()


def pairs(lines: list[str]) -> Words:
    """The word of each two hosts; the last line is the one of totals."""
    return {(one, other): word for one, other, word in (line.split(' ', 2) for line in lines[:-1])}


def told() -> dict[str, str]:
    """Of each word what docs/REACH.md says that it means, and what it promises."""
    page, found = command.read(os.path.join(command.TOP, 'docs', 'REACH.md')), dict[str, str]()
    for words, means, promise, *_ in fates.rows(page, 'word'):
        for word in re.findall('`([^`]+)`', words):
            found[word] = f'{fates.plain(means)}; promised of the next packet: {fates.plain(promise)}'
    return found


def changes() -> dict[str, str]:
    """Of each word what docs/REACH.md says would change it; of several items on one word, all of them."""
    page, found = command.read(os.path.join(command.TOP, 'docs', 'REACH.md')), dict[str, str]()
    section = page.partition('\n## What would change it\n')[2].partition('\n## ')[0]
    for head, behind, text in re.findall(r'^- \*\*((?:`[^`]+`(?:, )?)+)(.*?)\.?\*\* (.*)$', section, re.M):
        for word in re.findall('`([^`]+)`', head):
            said = f'{behind.strip(" ,")}: {text}' if behind else text
            found[word] = f'{found[word]} {fates.plain(said)}' if word in found else fates.plain(said)
    return found


class Before:
    """What `reach` says before an event of a scenario: why a packet doesn't come, where it can't."""

    def __init__(self, program: str, text: str, chain: str | None = None) -> None:
        self.program, self.text, self.chain = program, text, chain_for(text, chain)
        self.answers, self.is_known = dict[int, Words](), True

    def words(self, event: int) -> Words:
        """The words of what the events before this one left behind."""
        if event not in self.answers and self.is_known and len(self.answers) < ASKED_MAX:
            try:
                status, lines = answer(self.program, probes.with_first(self.text, event), self.chain)
            except command.Refusal:
                status, lines = command.WRONG_WORDS, []
            self.is_known = status != command.WRONG_WORDS
            self.answers[event] = pairs(lines) if status == 0 else {}
        return self.answers.get(event, {})

    def reason(self, event: int, sender: str, receiver: str, is_lost: bool) -> str | None:
        """The word that says why a packet of this event was lost, or waits, or None; an address in a host's place has none."""
        word = self.words(event).get((sender, receiver)) if ':' not in receiver else None
        return word if word in SHUT or is_lost and word == 'lost' else None
