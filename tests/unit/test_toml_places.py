"""A text in TOML: where each key and value stands, and the line and the column of each fault."""
import unittest

import toml_places
from command import FOUND, Refusal
from toml_nodes import NotToml, place_of

# A text that is no TOML 1.1: what is said, the line and the column.
FAULTS = [
    ('seed = \n', 'a value is missing', 1, 8),
    ('= 1\n', 'a key is missing', 1, 1),
    ('seed 1\n', '= is missing', 1, 6),
    ('seed = 1\nseed = 2\n', 'the key seed is there twice', 2, 1),
    ('seed = 01\n', 'a number has no leading zeros', 1, 8),
    ('seed = one\n', 'this is no value', 1, 8),
    ('seed = 1 2\n', 'the line should end here', 1, 10),
    ('seed = 1\n[[nat]\n', ']] is missing', 2, 6),
    ('[nat]\n\n[nat]\n', 'the table nat is there twice', 3, 2),
    ('nat = 1\n[nat.n1]\n', 'nat is no table', 2, 2),
    ('name = "a\n', 'the text has no end', 1, 8),
    ('name = "\\q"\n', 'there is no such escape', 1, 9),
    ('events = ["next" "next"]\n', ', is missing', 1, 18),
]


def fault_of(text):
    try:
        toml_places.read(text)
    except NotToml as fault:
        return fault
    raise AssertionError(f'{text!r} is read')


class Places(unittest.TestCase):
    def test_a_key_and_its_value_have_their_places(self):
        top = toml_places.read('seed = 1\nevents = ["next"]\n')
        self.assertEqual(top.keys, {'seed': 0, 'events': 9})
        events = top.table['events']
        self.assertEqual((events.start, events.end), (18, 26))
        self.assertEqual([(event.value, event.start, event.end) for event in events.items], [('next', 19, 25)])

    def test_a_header_begins_a_table(self):
        text = 'seed = 1\n\n[[nat]]\nname = "n1"\n\n[[nat]]\nname = "n2"\n'
        nats = toml_places.read(text).table['nat'].items
        self.assertEqual([nat.plain() for nat in nats], [{'name': 'n1'}, {'name': 'n2'}])
        self.assertEqual([place_of(text, nat.start)[:2] for nat in nats], [(3, 1), (6, 1)])

    def test_a_place_is_a_line_and_a_column_from_1(self):
        text = 'seed = 1\r\nevents = ["next"]\r\n'
        self.assertEqual(place_of(text, text.index('[')), (2, 10, 'events = ["next"]'))
        self.assertEqual(place_of('', 0), (1, 1, ''))


class Values(unittest.TestCase):
    def test_each_kind_of_value(self):
        text = ('\ufeffa = 1_000\nb = 0x1f\nc = true\nd = -2.5\ne = """\nx"""\nf = \'\\n\'\ng = "\\u0041\\t"\nh.i = [1, 2,] # end\n'
                'j = {k = 1,\n l = 2}\n')
        self.assertEqual(toml_places.read(text).plain(), {
            'a': 1000, 'b': 31, 'c': True, 'd': -2.5, 'e': 'x', 'f': '\\n', 'g': 'A\t', 'h': {'i': [1, 2]}, 'j': {'k': 1, 'l': 2}})

    def test_80_lists_stand_in_one_another_and_no_more(self):
        self.assertIsInstance(toml_places.read(f'a = {"[" * 80}{"]" * 80}').plain()['a'], list)
        self.assertTrue(fault_of(f'a = {"[" * 81}{"]" * 81}').is_bound)


class Faults(unittest.TestCase):
    def test_each_fault_has_its_line_and_column(self):
        for text, said, line, column in FAULTS:
            with self.subTest(text=text):
                fault = fault_of(text)
                self.assertEqual((str(fault), *place_of(text, fault.place)[:2]), (said, line, column))
                self.assertFalse(fault.is_bound)


class Scenarios(unittest.TestCase):
    def refused(self, text):
        with self.assertRaises(Refusal) as caught:
            toml_places.scenario_events('OWN.toml', text)
        self.assertEqual(caught.exception.status, FOUND)
        return str(caught.exception)

    def test_the_texts_of_the_events(self):
        self.assertEqual(toml_places.scenario_events('OWN.toml', 'events = ["advance 0", "next"]\n'), ['advance 0', 'next'])

    def test_a_fault_is_named_as_an_editor_does(self):
        self.assertTrue(self.refused('seed = 1\nevents = \n').startswith('OWN.toml:2:10: '))

    def test_without_a_list_of_events_it_is_no_scenario(self):
        for text in ('seed = 1\n', 'events = "next"\n'):
            self.assertTrue(self.refused(text).endswith('it has no list of events'))


if __name__ == '__main__':
    unittest.main()
