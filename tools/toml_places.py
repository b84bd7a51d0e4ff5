"""A text in TOML with the place of each key and value: what a tool needs to say where something stands.

Everything that TOML 1.1 allows is read, whatever Python's own reader knows. Places are offsets of characters.
"""
from __future__ import annotations

import re
from collections.abc import Sequence
from typing import NoReturn

from command import FOUND, Refusal
from toml_nodes import Node, NotToml, Part, Value, place_of

BARE = re.compile(r'[A-Za-z0-9_-]+')
SPACES, BLANKS = re.compile(r'[ \t]*'), re.compile(r'(?:[ \t\r\n]+|#[^\n]*)*')
PLAIN = re.compile(r'[^\s,\]}#]+')
STRINGS = [('"""', True), ("'''", False), ('"', True), ("'", False)]
ESCAPES = {'b': '\b', 't': '\t', 'n': '\n', 'f': '\f', 'r': '\r', 'e': '\x1b', '"': '"', '\\': '\\'}
NUMBER = re.compile(r'[+-]?(0x[0-9a-fA-F_]+|0o[0-7_]+|0b[01_]+|[0-9][0-9_]*)$')
DEPTH_MAX = 80  # of lists and inline tables in one another, and of the parts of a key
VALUES_MAX = 200_000  # of a text, tables that a key leads to counted: four times the events that a scenario may have
DIGITS_MAX = 100  # of a number that is turned into one; more are outside 64 bits, whatever they are
FLOAT = re.compile(r'[+-]?([0-9][0-9_]*(\.[0-9_]+)?([eE][+-]?[0-9_]+)?|inf|nan)$')


class Reader:
    def __init__(self, text: str) -> None:
        self.text, self.at, self.depth, self.count = text, 0, 0, 0

    def fail(self, text: str, place: int | None = None, is_bound: bool = False) -> NoReturn:
        raise NotToml(self.at if place is None else place, text, is_bound)

    def node(self, value: Value, start: int, is_header: bool = False) -> Node:
        """A value from `start` to here, one of as many as a text may have."""
        self.count += 1
        if self.count > VALUES_MAX:
            self.fail(f'the text has more than {VALUES_MAX:,} values', start, True)
        return Node(value, start, self.at, is_header=is_header)

    def take(self, word: str) -> None:
        if not self.text.startswith(word, self.at):
            self.fail(f'{word} is missing')
        self.at += len(word)

    def blank(self, lines: bool = False) -> None:
        """Skips spaces, and with `lines` also line breaks and comments."""
        skipped = (BLANKS if lines else SPACES).match(self.text, self.at)
        self.at = skipped.end() if skipped else self.at

    def comment(self) -> None:
        end = self.text.find('\n', self.at)
        self.at = len(self.text) if end < 0 else end

    def line_end(self) -> None:
        self.blank()
        if self.at < len(self.text) and self.text[self.at] == '#':
            self.comment()
        if self.at < len(self.text) and self.text[self.at] not in '\r\n':
            self.fail('the line should end here')

    def key(self) -> list[Part]:
        """The parts of a key, and the place of each."""
        parts: list[Part] = []
        while True:
            self.blank()
            place = self.at
            quote = self.text[self.at:self.at + 1]
            if quote and quote in '"\'':
                parts.append(Part(self.string(quote, quote == '"'), place))
            else:
                bare = BARE.match(self.text, self.at)
                if not bare:
                    self.fail('a key is missing')
                self.at = bare.end()
                parts.append(Part(bare[0], place))
            self.blank()
            if self.text[self.at:self.at + 1] != '.':
                return parts
            if len(parts) == DEPTH_MAX:
                self.fail(f'a key has at most {DEPTH_MAX} parts', is_bound=True)
            self.at += 1

    def string(self, quote: str, has_escapes: bool) -> str:
        self.at += len(quote)
        start, made = self.at, list[str]()
        while not self.text.startswith(quote, self.at):
            if self.at >= len(self.text) or len(quote) == 1 and self.text[self.at] == '\n':
                self.fail('the text has no end', start - len(quote))
            if has_escapes and self.text[self.at] == '\\':
                made.append(self.escape())
            else:
                made.append(self.text[self.at])
                self.at += 1
        self.at += len(quote)
        while len(quote) == 3 and self.text.startswith(quote[0], self.at):  # quotes before the three
            made.append(quote[0])
            self.at += 1
        return re.sub(r'^\r?\n', '', ''.join(made)) if len(quote) == 3 else ''.join(made)

    def escape(self) -> str:
        letter = self.text[self.at + 1:self.at + 2]
        if letter and letter in ESCAPES:
            self.at += 2
            return ESCAPES[letter]
        digits = {'x': 2, 'u': 4, 'U': 8}.get(letter)
        number = self.text[self.at + 2:self.at + 2 + (digits or 0)]
        if digits and re.fullmatch(rf'[0-9a-fA-F]{{{digits}}}', number) and int(number, 16) < 0x110000:
            self.at += 2 + digits
            return chr(int(number, 16))
        folded = re.compile(r'\\[ \t]*\r?\n\s*').match(self.text, self.at)
        if not folded:
            self.fail('there is no such escape')
        self.at = folded.end()
        return ''

    def value(self) -> Node:
        start = self.at
        for quote, has_escapes in STRINGS:
            if self.text.startswith(quote, self.at):
                return self.node(self.string(quote, has_escapes), start)
        if self.text.startswith(('[', '{'), self.at):
            return self.nested()
        word = PLAIN.match(self.text, self.at)
        if not word:
            self.fail('a value is missing')
        self.at = word.end()
        return self.node(self.scalar(word[0], start), start)

    def nested(self) -> Node:
        """A list or an inline table."""
        if self.depth == DEPTH_MAX:
            self.fail(f'lists and inline tables stand in one another at most {DEPTH_MAX} deep', is_bound=True)
        self.depth += 1
        made = self.array() if self.text[self.at] == '[' else self.inline_table()
        self.depth -= 1
        return made

    def scalar(self, word: str, start: int) -> Value:
        if word in ('true', 'false'):
            return word == 'true'
        if NUMBER.match(word):
            digits = word.replace('_', '')
            if re.match(r'[+-]?0[0-9]', digits):
                self.fail('a number has no leading zeros', start)
            return 10 ** DIGITS_MAX if len(digits) > DIGITS_MAX else int(digits, 0)
        if FLOAT.match(word):
            return float(word.replace('_', ''))
        if re.match(r'\d\d', word) and re.search('[-:]', word):
            return Node  # a date or a time, which no scenario has
        return self.fail('this is no value', start)

    def array(self) -> Node:
        start, found = self.at, list[Node]()
        self.take('[')
        while True:
            self.blank(lines=True)
            if self.text.startswith(']', self.at):
                break
            found.append(self.value())
            self.blank(lines=True)
            if self.text.startswith(']', self.at):
                break
            self.take(',')
        self.take(']')
        return self.node(found, start)

    def inline_table(self) -> Node:
        table = self.node({}, self.at)
        self.take('{')
        while True:
            self.blank(lines=True)
            if self.text.startswith('}', self.at):
                break
            self.pair(table)
            self.blank(lines=True)
            if self.text.startswith('}', self.at):
                break
            self.take(',')
        self.take('}')
        table.end = self.at
        return table

    def pair(self, table: Node) -> None:
        *path, (last, place) = self.key()
        table = self.inner(table, path)
        self.take('=')
        self.blank()
        if last in table.table:
            self.fail(f'the key {last} is there twice', place)
        table.keys[last] = place
        table.table[last] = self.value()

    def inner(self, table: Node, path: Sequence[Part]) -> Node:
        """The table that a path leads to, made where it isn't there; of a list of tables the latest one."""
        for part, place in path:
            table.keys.setdefault(part, place)
            if part not in table.table:
                table.table[part] = self.node({}, place)
            table = table.table[part]
            if isinstance(table.value, list) and table.value and isinstance(table.value[-1].value, dict):
                table = table.value[-1]
            if not isinstance(table.value, dict):
                self.fail(f'{part} is no table', place)
        return table

    def header(self, top: Node) -> Node:
        start = self.at
        is_list = self.text.startswith('[[', self.at)
        self.take('[[' if is_list else '[')
        *path, (last, place) = self.key()
        self.take(']]' if is_list else ']')
        outer, table = self.inner(top, path), self.node({}, start, True)
        outer.keys.setdefault(last, place)
        if is_list:
            tables = outer.table.setdefault(last, Node([], start, self.at, is_header=True))
            if not isinstance(tables.value, list) or not tables.is_header:
                self.fail(f'{last} is no list of tables', place)
            tables.value.append(table)
        elif last in outer.table and (outer.table[last].is_header or not isinstance(outer.table[last].value, dict)):
            self.fail(f'the table {last} is there twice', place)
        else:
            table = outer.table.setdefault(last, table)
            table.is_header = True
        return table

    def document(self) -> Node:
        self.at = 1 if self.text.startswith('\ufeff') else 0
        top = table = Node({}, 0, len(self.text))
        while True:
            self.blank(lines=True)
            if self.at >= len(self.text):
                return top
            if self.text[self.at] == '[':
                table = self.header(top)
            else:
                self.pair(table)
            self.line_end()


def read(text: str) -> Node:
    """The table of a whole text. Raises NotToml."""
    return Reader(text).document()


def scenario_node(path: str, text: str) -> Node:
    """The table of a scenario's text; a text that is no TOML or has no events is refused at once, and not played."""
    try:
        top = read(text)
    except NotToml as fault:
        line, column, _ = place_of(text, fault.place)
        raise Refusal(f'{path}:{line}:{column}: is no report, and no TOML: {fault}', FOUND) from None
    if not isinstance(top.table.get('events', Node(None, 0, 0)).value, list):
        raise Refusal(f'{path}: is neither a report nor a scenario: it has no list of events', FOUND)
    return top


def scenario_events(path: str, text: str) -> list[str]:
    """The texts of a scenario's events."""
    return [event.value for event in scenario_node(path, text).table['events'].items if isinstance(event.value, str)]
