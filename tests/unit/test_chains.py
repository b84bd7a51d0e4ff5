"""CHAIN, the word of `nested`, by the rules of docs/SCENARIOS.md, "Chains of NATs"."""
import unittest

import chains

# The scenario of that page's table: five NATs, and four clients of which d has the external address of n2.
NATS = [{'name': f'n{number}', 'external': f'198.51.100.{number}'} for number in range(1, 6)]
CLIENTS = [{'name': name, 'nat': nat, 'inside': inside} for name, nat, inside in (
    ('a', 'n1', '10.0.0.2:4000'), ('b', 'n2', '10.0.0.2:4000'), ('c', 'n4', '10.0.0.2:4000'), ('d', 'n5', '198.51.100.2:4000'))]
TREE = {'server': [{'name': 's1'}], 'nat': NATS, 'client': CLIENTS}
PLAYED = ('-', 'n1:n2', 'n1:n3,n2:n3', 'n3:n5,n1:n3', 'n1:n3,n2:n3,n3:n5,n4:n5')
# Of each CHAIN that is refused a word of why.
REFUSED = {'': 'is no pair', 'n1': 'is no pair', 'n1:n3,': 'is no pair', 'n1:n3, n2:n3': "' n2' is none", 'n1:n3:n5': 'is no pair',
           '-,n1:n3': 'is no pair', 'n1:n9': "'n9' is none", 'n1:s1': "'s1' is none", 'n3:n1': "n3 doesn't stand before n1",
           'n1:n1': "n1 doesn't stand before n1", 'n1:n3,n1:n5': 'n1 is behind n3', 'n1:n3,n1:n3': 'n1 is behind n3',
           'n1:n2,n2:n3,n3:n4': 'n1 behind n2 behind n3 behind n4', 'n2:n5': 'd and n2 are behind n5, at 198.51.100.2'}


class Rules(unittest.TestCase):
    def test_chains_that_are_played(self):
        for chain in PLAYED:
            with self.subTest(chain=chain):
                self.assertIsNone(chains.fault_of(TREE, chain))

    def test_chains_that_are_refused(self):
        for chain, why in REFUSED.items():
            with self.subTest(chain=chain):
                self.assertIn(why, chains.fault_of(TREE, chain) or 'played')

    def test_what_is_no_scenario_has_no_nats(self):
        self.assertIn('here is none', chains.fault_of({'nat': 5}, 'n1:n2'))
        self.assertIsNone(chains.fault_of({}, '-'))


class Ways(unittest.TestCase):
    def test_a_way_out_has_the_nearest_nat_first(self):
        outer_of = dict(chains.pairs_of('n1:n3,n2:n3,n3:n5'))
        self.assertEqual([chains.way_out(outer_of, nat) for nat in ('n1', 'n3', 'n5')], [['n1', 'n3', 'n5'], ['n3', 'n5'], ['n5']])

    def test_no_pairs(self):
        self.assertEqual(chains.pairs_of('-'), [])

    def test_nats_in_a_ring_end(self):
        self.assertEqual(len(chains.way_out({'n1': 'n2', 'n2': 'n1'}, 'n1')), chains.NATS_MAX + 1)


class Said(unittest.TestCase):
    def test_a_scenario_says_its_chain_in_a_line_of_its_own(self):
        for text, chain in (('# chain: home:carrier\nseed = 1\n', 'home:carrier'), ('seed = 1\n  #chain:- \t\r\n', '-'), ('# chain:\n', ''),
                            ('seed = 1 # chain: a:b\n', None), ('seed = 1\n', None)):
            with self.subTest(text=text):
                self.assertEqual(chains.chain_of(text), chain)


if __name__ == '__main__':
    unittest.main()
