"""What a ladder shows of a report, and which of its forms fits into a terminal."""
import unittest

import ladder_text
import topology
from command import Refusal
from ladder import Ladder, line_of
from report import Report, record_of
from shared import CONE_TEST, LOST_ANSWER, ONE_CLIENT

CLOSE_FROM = 56  # columns: 12 of the time, 13 of three nodes, 3 and 2 beside them, and 26 of what is said


def ladder_of(text, **words):
    return Ladder(Report(text), known=topology.topology_of(ONE_CLIENT), **words)


class Rows(unittest.TestCase):
    def test_an_arrow_is_a_delivery(self):
        rows = ladder_of(CONE_TEST).rows
        self.assertEqual([(row.record, row.source, row.target, row.label, row.is_arrow) for row in rows], [
            (0, 'a', None, '', False), (2, 'a', 's1', '#0 solicitation', True), (3, 's1', 'n1', '#1 advertisement', True)])
        self.assertEqual([row.is_dropped for row in rows], [False, False, True])
        self.assertEqual([row.passes for row in rows[1:]], [('n1',), ()])

    def test_a_port_of_the_second_address_stands_behind_a_q(self):
        self.assertEqual([row.ends for row in ladder_of(CONE_TEST).rows[1:]], [(':1024', ':3544'), ('Q:3544', ':1024')])

    def test_what_is_never_delivered_goes_towards_whom_it_was_for(self):
        lost = ladder_of(LOST_ANSWER).rows[-1]
        self.assertEqual((lost.source, lost.target, lost.is_lost, lost.is_dropped, lost.fate), ('s1', 'a', True, False, 'never delivered'))

    def test_columns(self):
        self.assertEqual(ladder_of(CONE_TEST).nodes, ['a', 'n1', 's1'])
        self.assertEqual(ladder_of(CONE_TEST, nodes=['s1']).nodes[0], 's1')
        for words in ({'nodes': ['x']}, {'first': 5}):
            with self.subTest(words=words), self.assertRaises(Refusal):
                ladder_of(CONE_TEST, **words)

    def test_a_record_in_short(self):
        line = '26 12000 11 deliver:16 a rule2 late/45 gone/2 #17=198.51.100.1:1024>203.0.113.9:3545/45 !full=198.51.100.9:7/40'
        self.assertEqual(line_of(record_of(line)), '26 deliver:16 a rule2 late/45 gone/2 #17 !full')


class Forms(unittest.TestCase):
    def test_wide_has_an_arrow_a_line_with_what_travels_on_it(self):
        head, asked, came, closed = ladder_text.text_of(ladder_of(CONE_TEST))
        self.assertEqual(head.split(), ['a', 'n1', 's1'])
        self.assertTrue(asked.strip().startswith('0 ms'))
        self.assertRegex(came, r'^ +\|-+#0 solicitation-+>\|   2 deliver:0 s1 advert #1$')
        self.assertRegex(closed, r'^ +\| +X<-+#1 advertisement-+\|   3 deliver:1 n1 nat_closed$')

    def test_what_is_lost_ends_in_a_slash(self):
        self.assertIn('/', ladder_text.text_of(ladder_of(LOST_ANSWER))[-1].split('#1')[0])

    def test_no_line_is_wider_than_the_terminal(self):
        for text in (CONE_TEST, LOST_ANSWER):
            for width in range(40, 140):
                lines = ladder_text.fitting_of(ladder_of(text), False, width)
                self.assertLessEqual(max(map(len, lines)), width)
                self.assertTrue(all(word in ' '.join(lines) for word in ('#0 solicitation', 'advert')))

    def test_the_widest_form_that_fits(self):
        ladder = ladder_of(CONE_TEST)
        wide = ladder_text.text_of(ladder)
        most = max(map(len, wide))
        self.assertEqual(ladder_text.fitting_of(ladder, False, most), wide)
        self.assertNotEqual(ladder_text.fitting_of(ladder, False, most - 1), wide)
        heads = [ladder_text.fitting_of(ladder, False, width)[0].split() for width in (CLOSE_FROM, CLOSE_FROM - 1)]
        self.assertEqual(heads[0], ['a', 'n1', 's1'])
        self.assertEqual(heads[1][:3], ['0', 'ms', 'a'])  # the narrow form has no columns


if __name__ == '__main__':
    unittest.main()
