"""What toml_places.py reads: the values of a text in TOML, each with its place, and what is wrong with one, and where."""
from __future__ import annotations

from dataclasses import dataclass, field
from typing import Any, NamedTuple, Union

from command import Refusal


class Part(NamedTuple):
    """A part of a key, and where it stands."""
    name: str
    place: int


class Place(NamedTuple):
    """A place as an editor says it: the line and the column, both from 1, and the line's text."""
    line: int
    column: int
    text: str


class NotToml(Refusal):
    """What is wrong, and where; and whether it is a bound of this reader's that the text is above."""
    def __init__(self, place: int, text: str, is_bound: bool = False) -> None:
        super().__init__(text)
        self.place, self.is_bound = place, is_bound

    def __reduce__(self) -> tuple[Any, ...]:
        return NotToml, (self.place, str(self), self.is_bound)


@dataclass(slots=True)
class Node:
    """A value from `start` to `end`: of a table a dictionary of nodes, of a list a list of them. `keys` has the place of
    each key of a table."""
    value: Value
    start: int
    end: int
    keys: dict[str, int] = field(default_factory=dict)
    is_header: bool = False  # a table that a header in brackets begins

    @property
    def table(self) -> dict[str, Node]:
        """The nodes of a table; who asks knows that it is one."""
        assert isinstance(self.value, dict)
        return self.value

    @property
    def items(self) -> list[Node]:
        """The nodes of a list; who asks knows that it is one."""
        assert isinstance(self.value, list)
        return self.value

    def plain(self) -> Any:
        """The value alone, however deep it is."""
        top: list[Any] = [None]
        left: list[tuple[Node, Any, Any]] = [(self, top, 0)]
        while left:
            node, into, key = left.pop()
            into[key] = node.value
            if isinstance(node.value, list):
                into[key] = [None] * len(node.value)
                left += [(item, into[key], at) for at, item in enumerate(node.value)]
            elif isinstance(node.value, dict):
                into[key] = dict.fromkeys(node.value)
                left += [(item, into[key], name) for name, item in node.value.items()]
        return top[0]


# What a value is: a date or a time, which no scenario has, is the type of a value and no more.
Value = Union[str, bool, int, float, type[Node], None, list[Node], dict[str, Node]]


def place_of(text: str, offset: int) -> Place:
    """The line and the column of an offset, both from 1, and the line's text."""
    start = text.rfind('\n', 0, offset) + 1
    end = text.find('\n', offset)
    line = text[start:len(text) if end < 0 else end].rstrip('\r')
    return Place(text.count('\n', 0, offset) + 1, offset - start + 1, line)
