"""Which NATs of a scenario stand behind which: CHAIN, the word of `nested`, and the rules of it that docs/SCENARIOS.md has.

A scenario that is to be played with a chain says so in a comment of its own, `# chain: CHAIN`; the program reads past it.
"""
import re
from collections.abc import Callable
from typing import Any

Table = dict[str, Any]  # of a text in TOML, which may have anything at a key
Play = Callable[[str], tuple[int, str]]  # the status and the report of a scenario's text

LINE = re.compile(r'^[ \t]*#[ \t]*chain:[ \t]*(.*)$', re.M)
NATS_MAX = 3  # that stand one behind the other
LEFT_OUT = ('forget', 'fault', 'settle')  # events that `nested` doesn't play


def found_in(text: str) -> re.Match[str] | None:
    """The line of a scenario that has its chain, as a match whose first group is CHAIN and maybe blanks, or None."""
    return LINE.search(text)


def chain_of(text: str) -> str | None:
    """The CHAIN that a scenario says, or None."""
    line = found_in(text)
    return line[1].rstrip(' \t\r') if line else None


def pairs_of(chain: str) -> list[list[str]]:
    """The pairs of names, inner and outer; a part that is none is a list of another length."""
    return [] if chain == '-' else [part.split(':') for part in chain.split(',')]


def way_out(outer_of: dict[str, str], nat: str) -> list[str]:
    """The NATs that what leaves through this one passes, as long as they are few."""
    way = [nat]
    while way[-1] in outer_of and len(way) <= NATS_MAX:
        way.append(outer_of[way[-1]])
    return way


def tables(scenario: Table, key: str) -> list[Table]:
    found = scenario.get(key, [])
    return [table for table in found if isinstance(table, dict)] if isinstance(found, list) else []


def fault_of(scenario: Table, chain: str) -> str | None:
    """The first rule that CHAIN breaks in a scenario, which is plain dictionaries and lists, or None."""
    external: dict[Any, Any] = {nat.get('name'): nat.get('external') for nat in tables(scenario, 'nat')}
    order, outer_of = list(external), dict[str, str]()
    for pair in pairs_of(chain):
        if len(pair) != 2:
            return f'pairs INNER:OUTER with commas between them, or - for none; {":".join(pair)!r} is no pair'
        inner, outer = pair
        unknown = [name for name in pair if name not in external]
        if unknown:
            return f'the names of NATs; {unknown[0]!r} is none, and here is {", ".join(order) or "none"}'
        if order.index(inner) >= order.index(outer):
            return f'an inner NAT that stands before its outer one in the scenario; {inner} doesn\'t stand before {outer}'
        if inner in outer_of:
            return f'each NAT behind one other at most; {inner} is behind {outer_of[inner]}, and is named again'
        outer_of[inner] = outer
    for inner in outer_of:
        way = way_out(outer_of, inner)
        if len(way) > NATS_MAX:
            return f'at most {NATS_MAX} NATs one behind the other; {" behind ".join(way)} are more'
    for client in tables(scenario, 'client'):
        inside = str(client.get('inside')).partition(':')[0]
        for inner, outer in outer_of.items():
            if (client.get('nat'), inside) == (outer, external[inner]):
                return f'no client with the address of a NAT beside it; {client.get("name")} and {inner} are behind {outer}, at {inside}'
    return None
