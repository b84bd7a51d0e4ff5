"""The tables of docs/SCENARIOS.md that are made of docs/scenario.schema.json: keys by list, values, events.

What is said of a key is its description, with the title of the definition that it refers to in front. What stands there behind
`; where it is missing ` is the last column, and what an event says of HEX is left out: the page says it once, for all of them.
"""
import json
import re

MISSING, HEX = '; where it is missing ', '; HEX is '
# The definitions that are kinds of values.
VALUES = ('name', 'global', 'endpoint', 'native')
TYPES = {'string': 'text', 'integer': 'whole number', 'boolean': 'truth value'}
LISTS = {'object': 'list of tables', 'string': 'list of texts', 'refresh_ms': 'list of two whole numbers'}
# A number that is no part of an address and no RFC's.
NUMBER = re.compile(r'(?<!RFC )(?<![\w:.])\d{4,}(?![\w:/])')


def said(text):
    """A text of the schema as the page has it."""
    return NUMBER.sub(lambda found: f'{int(found[0]):,}', text)


def name_of(value):
    """The name of the definition that a value refers to."""
    return value['$ref'].rpartition('/')[2] if '$ref' in value else ''


def kind(value):
    """The type of a value, in the words of the page."""
    if value.get('type') == 'array':
        return LISTS[name_of(value['items']) or value['items']['type']]
    return 'text' if 'enum' in value or '$ref' in value else TYPES[value['type']]


def rule(schema, value):
    """What may stand there: of a text of several each in backquotes."""
    told = value.get('description', '').partition(MISSING)[0]
    for word in value.get('enum', ()):
        told = re.sub(rf'\b{word}\b', f'`{word}`', told, count=1)
    title = schema['definitions'][name_of(value)]['title'] if '$ref' in value else ''
    return said(': '.join(part for part in (title, told) if part))


def if_missing(table, key):
    value = table['properties'][key]
    if key in table['required']:
        return 'refused'
    told = said(value['description'].partition(MISSING)[2])
    return f'`{told}`' if told.isalpha() else told or 'an empty list'


def table_of(schema, table):
    """The keys of the top or of a list; the last column only where one may be missing."""
    may_miss = len(table['required']) < len(table['properties'])
    head = ['key', 'type', 'rule'] + ['if missing'] * may_miss
    rows = [[f'`{key}`', kind(value), rule(schema, value)] + [if_missing(table, key)] * may_miss for key, value in table['properties'].items()]
    return markdown(head, rows)


def markdown(head, rows):
    lines = ['| ' + ' | '.join(head) + ' |', '|' + '---|' * len(head), *('| ' + ' | '.join(row) + ' |' for row in rows)]
    return '\n'.join(line.replace(' |  |', ' | |') for line in lines) + '\n'


def keys(schema):
    """A section for the top, one for each list, and one for the kinds of values."""
    parts = ['### The top\n\n' + table_of(schema, schema)]
    for key, value in schema['properties'].items():
        if value.get('type') == 'array' and 'properties' in value['items']:
            parts.append(f'### `[[{key}]]`\n\n' + table_of(schema, value['items']))
    values = [(schema['definitions'][name]['title'], said(schema['definitions'][name]['description'])) for name in VALUES]
    return '\n'.join([*parts, '### Values\n\n' + markdown(['value', 'what it is'], values)])


def events(schema):
    rows = []
    for event in schema['properties']['events']['items']['anyOf']:
        shape, _, told = event['description'].partition(': ')
        rows.append([f'`{shape}`', said(told.partition(HEX)[0])])
    return markdown(['text', 'what it does'], rows)


def made(text, part):
    """The tables of the keys, or of the events."""
    return {'': keys, 'events': events}[part](json.loads(text))
