"""The parts of pages that are made of examples, of the table of fates, and of stored tables."""
import os
import tempfile
import unittest

import regions
import stored_tables

PAGE = """# Examples

<!-- made by .ci/pages --write of {folder} -->
| `two` |
| `one` | told by hand | |
| `gone` | there is no such file |
<!-- so far -->

By hand.
"""


class Examples(unittest.TestCase):
    def setUp(self):
        folder = tempfile.TemporaryDirectory()
        self.addCleanup(folder.cleanup)
        self.top = folder.name

    def put(self, path, text):
        os.makedirs(os.path.join(self.top, os.path.dirname(path)), exist_ok=True)
        with open(os.path.join(self.top, path), 'w', encoding='utf-8') as file:
            file.write(text)

    def test_the_cells_of_a_comment(self):
        text = '# Two meet, as\n# one does. And then\n# they part.\n# RFC 4380: 5.2; RFC 5991, 3.2\n# Look at: `sent`: it goes\n# chain: a:b\nseed = 1\n# Look at: nothing\n'
        self.assertEqual(regions.example(text), ('Two meet, as one does', '5.2; RFC 5991, 3.2', '`sent`: it goes'))

    def test_a_long_sentence_ends_at_its_colon(self):
        self.assertEqual(regions.first_sentence(['It is lost: ' + 'a' * regions.CELL_MAX + '.']), 'It is lost')
        self.assertEqual(regions.first_sentence(['It is lost: all of it.', 'Not the rest.']), 'It is lost: all of it')

    def test_the_names_and_their_order_are_those_of_the_table(self):
        self.put('examples/scenarios/one.toml', '# One.\n# Look at: `a`\nseed = 1\n')
        self.put('examples/scenarios/two.toml', '# Two.\n# RFC 4380: 5.3\n# Look at: `b`\nseed = 1\n')
        made = regions.renewed(self.top, PAGE.format(folder='examples/scenarios'))
        self.assertIn('\n| scenario | shows | RFC 4380 | look at |\n|---|---|---|---|\n| `two` | Two | 5.3 | `b` |\n| `one` | One | | `a` |\n<!-- so far -->\n\nBy hand.\n', made)
        self.assertEqual(regions.renewed(self.top, made), made)
        self.assertEqual(regions.by_hand(made), '# Examples\n\n\n\nBy hand.\n')

    def test_no_column_of_the_standard_where_none_names_it(self):
        self.put('examples/chains/one.toml', '# One.\n# Look at: `a`\n# chain: a:b\nseed = 1\n')
        made = regions.renewed(self.top, PAGE.format(folder='examples/chains'))
        self.assertIn('\n| chain | shows | look at |\n|---|---|---|\n| `one` | One | `a` |\n<!-- so far -->', made)

    def test_a_scenario_as_it_stands(self):
        self.put('examples/scenarios/one.toml', '# One.\nseed = 1\n')
        self.assertEqual(regions.made(self.top, 'examples/scenarios/one.toml'), '```toml\n# One.\nseed = 1\n```\n')
        self.assertIsNone(regions.made(self.top, 'examples/scenarios/two.toml'))


class Fates(unittest.TestCase):
    TABLE = '# A head.\n`advert` | S | answered | | whether it gets in\n**`big`** | S, C | too big | a host | its length\n**`off`** | C | not qualified | | `a`\n**`kind`** | S | no bubble | data | who\n'

    def test_those_of_a_node_in_the_order_of_the_table(self):
        old = '| fate | means |\n|---|---|\n| **`kind`** | told by hand |\n| `off` | of another node |\n| `big` | |\n'
        self.assertEqual(regions.fates_of(self.TABLE, 'S', old),
                         '| fate | means | likely cause |\n|---|---|---|\n| **`kind`** | no bubble | data |\n| **`big`** | too big | a host |\n| `advert` | answered | |\n')

    def test_all_of_them(self):
        self.assertIn('\n| `advert` | S | answered | | whether it gets in |\n', regions.fates(self.TABLE))


class Stored(unittest.TestCase):
    TEXT = ('client  fates\ncone    six\n\nto h1, without      comes   left  fates\na lists 255 others  no         0  queued six\nit is lost: all     no         1  -\n\n'
            'from h1, without    comes   left  fates\na lists 255 others  no         0  sent_six\nit is a reply       no         0  big\n\n'
            'to h1, with the cone bit  comes   left  fates\na lists 255 others  yes        0  kept\n')

    def test_a_table_as_it_stands(self):
        self.assertEqual(stored_tables.made(self.TEXT, '1'), '```text\nclient  fates\ncone    six\n```\n')
        self.assertIsNone(stored_tables.made(self.TEXT, '5'))
        self.assertIsNone(stored_tables.made(self.TEXT, ''))

    def test_what_keeps_a_packet_away(self):
        self.assertEqual(stored_tables.made(self.TEXT, 'without').splitlines()[2:], [
            '| 1 | a lists 255 others | `queued`, `six` | `sent_six` |', '| 2 | it is lost: all | nothing is delivered | - |', '| 3 | it is a reply | - | `big` |'])

    def test_what_breaks_a_premise(self):
        text = 'bubble  fates\nfirst   rule3\n\nwithout      arrives   left  fates\na has tried  no           0  -\nthey are one  no          1  nat_closed advert\n'
        self.assertEqual(stored_tables.made(text, 'broken'), '1. a has tried (nothing is delivered)\n2. they are one (`nat_closed`, `advert`)\n')


if __name__ == '__main__':
    unittest.main()
