"""Who stands behind which NAT in a scenario, who is at an endpoint, and in which order a picture has the nodes."""
import unittest

import topology
from report import Report
from shared import CONE_TEST, ONE_CLIENT, RELAY, TREE, client, nat, scenario


class Nodes(unittest.TestCase):
    def test_the_kinds_of_all_nodes(self):
        known = topology.topology_of(scenario(nat('n1', 1), client('a', 'n1'), RELAY))
        self.assertEqual(known.kinds, {'s1': 'server', 'n1': 'nat', 'a': 'client', 'r1': 'relay', 'h1': 'native'})
        self.assertEqual(known.outer, {})

    def test_who_is_at_an_endpoint(self):
        known = topology.topology_of(scenario(nat('n1', 1), client('a', 'n1'), RELAY))
        found = [known.node_at(end) for end in ('192.0.2.1:3544', '192.0.2.2:3544', '198.51.100.1:1024', '203.0.113.9:3545', '203.0.113.9:3546')]
        self.assertEqual(found, ['s1', 's1', 'n1', 'r1', None])
        self.assertEqual([known.is_secondary(end) for end in ('192.0.2.1:3544', '192.0.2.2:3544')], [False, True])

    def test_of_a_report_alone_the_fates_tell_the_kinds(self):
        self.assertEqual(topology.guessed(Report(CONE_TEST)).kinds, {'a': 'client', 's1': 'server', 'n1': 'nat'})


class Chains(unittest.TestCase):
    def test_a_scenario_has_the_chain_that_it_says(self):
        known = topology.topology_of(TREE)
        self.assertEqual(known.outer, {'n1': 'n3', 'n2': 'n3', 'n3': 'n5'})
        self.assertEqual([known.way_out(name) for name in ('a', 'd', 's1')], [['n1', 'n3', 'n5'], ['n5'], []])

    def test_one_that_is_named_goes_before_it(self):
        self.assertEqual(topology.topology_of(TREE, 'n1:n2').outer, {'n1': 'n2'})
        self.assertEqual(topology.topology_of(TREE, '-').outer, {})

    def test_a_chain_that_is_refused_is_none(self):
        self.assertEqual(topology.topology_of(TREE, 'n3:n1').outer, {})

    def test_what_is_sent_passes_nats_out_and_in(self):
        known = topology.topology_of(TREE)
        self.assertEqual(known.way('a', True, 'b'), ['n1', 'n3', 'n5', 'n5', 'n3', 'n2'])
        self.assertEqual(known.way('s1', False, 'd'), ['n5'])
        self.assertEqual(known.way('s1', False, 'n2'), ['n5', 'n3'])  # which n2 closes
        self.assertEqual(known.way('a', True, None), ['n1', 'n3', 'n5'])

    def test_a_nat_sends_nothing_back_to_its_own_address(self):
        known = topology.topology_of(TREE)
        self.assertEqual([known.turned_back_by('a', end) for end in ('198.51.100.5:1024', '198.51.100.4:1024')], ['n5', None])


class Columns(unittest.TestCase):
    def test_clients_stand_left_of_their_nats_and_servers_behind(self):
        self.assertEqual(topology.columns(topology.topology_of(ONE_CLIENT), ['s1', 'n1', 'a']), ['a', 'n1', 's1'])

    def test_relays_and_hosts_stand_at_the_right(self):
        known = topology.topology_of(scenario(nat('n1', 1), client('a', 'n1'), RELAY))
        self.assertEqual(topology.columns(known, ['h1', 'r1', 's1', 'a', 'n1']), ['a', 'n1', 's1', 'r1', 'h1'])

    def test_without_them_half_of_the_clients_do(self):
        known = topology.topology_of(scenario(nat('n1', 1), nat('n2', 2), client('a', 'n1'), client('b', 'n2')))
        self.assertEqual(topology.columns(known, ['a', 'b', 'n1', 'n2', 's1', 'x']), ['a', 'n1', 's1', 'n2', 'b', 'x'])


if __name__ == '__main__':
    unittest.main()
