"""The tables that are made of a schema of scenarios."""
import json
import unittest

import keys

NAME = {'$ref': '#/definitions/name'}
SCHEMA = {
    'required': ['seed'],
    'properties': {
        'seed': {'type': 'integer', 'description': 'up to 9223372036854775807, RFC 4380, in 2000::/3'},
        'nat': {'type': 'array', 'description': 'NATs: at most 64', 'items': {'type': 'object', 'required': ['name', 'kind'], 'properties': {
            'name': NAME, 'kind': {'enum': ['cone', 'port'], 'description': 'cone or port (no cone)'}}}},
        'client': {'type': 'array', 'description': 'clients: at most 64', 'items': {'type': 'object', 'required': ['name'], 'properties': {
            'name': {**NAME, 'description': 'its own'},
            'refresh': {'type': 'array', 'items': {'$ref': '#/definitions/refresh_ms'}, 'description': 'low and high; where it is missing 22500 and 30000'},
            'flags': {'enum': ['zero'], 'description': 'zero; where it is missing zero'}}}},
        'events': {'type': 'array', 'description': 'what happens; where it is missing none', 'items': {'type': 'string', 'anyOf': [
            {'description': 'next: delivers one'}, {'description': 'raw A HEX: at most 1400 bytes; HEX is digits'}]}}},
    'definitions': {
        'name': {'title': 'a name', 'description': 'letters'}, 'global': {'title': 'an address', 'description': 'not in 10/8'},
        'endpoint': {'title': 'an endpoint', 'description': 'a port from 1 to 65535'}, 'native': {'title': 'IPv6', 'description': 'outside 2001::/32'}}}
KEYS = """### The top

| key | type | rule | if missing |
|---|---|---|---|
| `seed` | whole number | up to 9,223,372,036,854,775,807, RFC 4380, in 2000::/3 | refused |
| `nat` | list of tables | NATs: at most 64 | an empty list |
| `client` | list of tables | clients: at most 64 | an empty list |
| `events` | list of texts | what happens | `none` |

### `[[nat]]`

| key | type | rule |
|---|---|---|
| `name` | text | a name |
| `kind` | text | `cone` or `port` (no cone) |

### `[[client]]`

| key | type | rule | if missing |
|---|---|---|---|
| `name` | text | a name: its own | refused |
| `refresh` | list of two whole numbers | low and high | 22,500 and 30,000 |
| `flags` | text | `zero` | `zero` |

### Values

| value | what it is |
|---|---|
| a name | letters |
| an address | not in 10/8 |
| an endpoint | a port from 1 to 65,535 |
| IPv6 | outside 2001::/32 |
"""
EVENTS = """| text | what it does |
|---|---|
| `next` | delivers one |
| `raw A HEX` | at most 1,400 bytes |
"""


class Keys(unittest.TestCase):
    def test_a_section_for_each_list(self):
        self.assertEqual(keys.made(json.dumps(SCHEMA), ''), KEYS)

    def test_what_is_said_of_hex_is_said_once(self):
        self.assertEqual(keys.made(json.dumps(SCHEMA), 'events'), EVENTS)


if __name__ == '__main__':
    unittest.main()
