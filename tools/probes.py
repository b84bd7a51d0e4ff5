"""A scenario with the next packet of two hosts at its end, and all that follows delivered."""
from collections.abc import Iterable

import chains
import toml_places
from chains import Play

NEXT_MAX = 40  # deliveries that follow with a chain, at most: without `settle` each is an event


def with_events(text: str, more: Iterable[str]) -> str:
    """A scenario's text with events behind those that it has."""
    events = toml_places.read(text).table['events']
    end = events.items[-1].end if events.items else events.start + 1
    lines = ',\n  '.join(f'"{event}"' for event in more)
    return text[:end] + (',' if events.items else '') + '\n  ' + lines + ',\n]' + text[events.end:]


def with_first(text: str, count: int) -> str:
    """A scenario's text with so many of its events, the first ones."""
    events = toml_places.read(text).table['events']
    kept = text[events.start:events.items[count - 1].end] + ',\n]' if count else '[]'
    return text[:events.start] + kept + text[events.end:]


def count_of(text: str) -> int:
    return len(toml_places.read(text).table['events'].items)


def delivered(report: str, count: int) -> int:
    """How many of the `next` behind so many events deliver something."""
    acts = [line.split(' ') for line in report.splitlines() if line[:1].isdigit()]
    return sum(act[3].startswith('deliver:') and int(act[2]) >= count for act in acts)


def with_deliveries(text: str, play: Play) -> str:
    """The text with what is left on the wire delivered, by `settle`, and with a chain by as many `next` as it takes."""
    if chains.chain_of(text) is None:
        return with_events(text, ['settle'])
    count = delivered(play(with_events(text, ['next'] * NEXT_MAX))[1], count_of(text))
    return with_events(text, ['next'] * count) if count else text


def probe(text: str, sender: str, receiver: str, play: Play) -> tuple[str, int]:
    """The scenario's text with the packet, and the number of its event. `play` answers the status and the report of a text."""
    return with_deliveries(with_events(text, [f'host {sender} {receiver} 00']), play), count_of(text)
