"""When NATs let somebody in, by lines of `state`, and the bars of a ladder."""
import unittest

import ladder_svg
import topology
from kept import Kept
from ladder import Ladder
from report import Report
from shared import ONE_CLIENT
from windows import said_of, windows_of

OPENED = """\
- 0 n1 -
- 0 a cone - due 0
0 0 n1 port 1024 inside 10.0.0.2:4000 until 60000
0 0 n1 port 1024 lets 192.0.2.1:3544 until 60000
2 4000 n1 port 1024 inside 10.0.0.2:4000 until 64000
2 4000 n1 port 1024 lets 192.0.2.2:3544 until 64000
3 59999 n1 port 1024 inside 10.0.0.2:4000 until 119999
3 59999 n1 port 1024 lets 192.0.2.1:3544 until 119999
5 70000 n1 port 1024 inside 10.0.0.2:4000 until 130000
5 70000 n1 port 1024 lets 192.0.2.2:3544 until 130000
7 80000 n1 inside 10.0.0.2:4000 -
8 90000 n1 port 1025 inside 10.0.0.2:4000 until 150000
8 90000 n1 port 1025 lets 192.0.2.1:3544 until 150000
9 95000 n1 -
total records 10
"""
REPORT = """\
0 0 0 tick a rs_cone #0=198.51.100.1:1024>192.0.2.1:3544/61
1 0 0 advance - done
2 4000 1 tick a rs_cone #1=198.51.100.1:1024>192.0.2.2:3544/61
3 59999 1 tick a refresh #2=198.51.100.1:1024>192.0.2.1:3544/61
4 63999 2 deliver:1 s1 advert #3=192.0.2.2:3544>198.51.100.1:1024/117
5 70000 3 tick a refresh #4=198.51.100.1:1024>192.0.2.2:3544/61
6 75000 4 deliver:3 a answered
7 80000 5 forget n1 done
8 90000 6 tick a refresh #5=198.51.100.1:1025>192.0.2.1:3544/61
9 95000 7 restart n1 done
total records 10 entries 6 delivered 2 handed 0 kept 0 dropped 0
"""


def windows_in(text, kept):
    return windows_of(Kept(kept), topology.topology_of(text))


class Windows(unittest.TestCase):
    def setUp(self):
        self.known = topology.topology_of(ONE_CLIENT)
        self.found = windows_in(ONE_CLIENT, OPENED)

    def test_a_window_is_kept_open_until_nothing_renews_it(self):
        told = [(one.whom, one.port, one.since, one.until, one.void, one.word) for one in self.found]
        self.assertEqual(told, [('192.0.2.1:3544', 1024, 0, 119_999, 7, 'forget'), ('192.0.2.2:3544', 1024, 2, 64_000, None, ''),
                                ('192.0.2.2:3544', 1024, 5, 130_000, 7, 'forget'), ('192.0.2.1:3544', 1025, 8, 150_000, 9, 'restart')])

    def test_it_is_said_in_words(self):
        said = [said_of(one, self.known) for one in self.found]
        self.assertEqual(said[0], 'n1 lets in 192.0.2.1:3544 (s1), to port 1024 of a, from record 0, 0 ms, until record 7, where n1 was told to forget a')
        self.assertEqual(said[1], 'n1 lets in 192.0.2.2:3544 (s1), to port 1024 of a, from record 2, 4,000 ms, until 64,000 ms')
        self.assertTrue(said[3].endswith('until record 9, where n1 was restarted'))

    def test_a_cone_lets_in_anyone_and_a_symmetric_one_whom_its_port_is_toward(self):
        cone = ONE_CLIENT.replace('kind = "port"', 'kind = "cone"')
        lines = '- 0 n1 -\n0 0 n1 port 1024 inside 10.0.0.2:4000 until 60000\ntotal records 1\n'
        self.assertEqual([(one.whom, one.until) for one in windows_in(cone, lines)], [('', 60_000)])
        self.assertEqual(windows_in(ONE_CLIENT, lines), [])
        symmetric = ONE_CLIENT.replace('kind = "port"', 'kind = "symmetric"')
        lines = lines.replace('4000 until', '4000 to 192.0.2.1:3544 until')
        self.assertEqual([one.whom for one in windows_in(symmetric, lines)], ['192.0.2.1:3544'])

    def test_without_state_there_is_none(self):
        self.assertEqual(windows_of(None, self.known), [])


class Bars(unittest.TestCase):
    def setUp(self):
        self.known, self.windows = topology.topology_of(ONE_CLIENT), windows_in(ONE_CLIENT, OPENED)
        self.ladder = Ladder(Report(REPORT), known=self.known, windows=self.windows)

    def numbers(self, ladder):
        return [(ladder.rows[bar.first].record, ladder.rows[bar.end].record if bar.end < len(ladder.rows) else None, bar.is_older) for bar in ladder.bars]

    def test_a_bar_begins_at_its_record_and_ends_at_the_first_one_of_a_later_moment(self):
        self.assertEqual(self.numbers(self.ladder), [(0, 7, False), (2, 5, False), (5, 7, False), (8, 9, False)])

    def test_some_records_alone_have_the_bars_that_are_open_there(self):
        self.assertEqual(self.numbers(Ladder(Report(REPORT), 3, 4, (), self.known, self.windows)), [(3, None, True), (3, None, True)])
        self.assertEqual(self.numbers(Ladder(Report(REPORT), 0, 4, ('a', 's1'), self.known, self.windows)), [])  # n1 is no column

    def test_a_picture_has_them_side_by_side_and_names_them(self):
        drawn = [line for line in ladder_svg.svg_of(self.ladder, 'x') if 'class="lets"' in line]
        self.assertEqual(len(drawn), 4)
        self.assertEqual([sum(said_of(one, self.known) in line for line in drawn) for one in self.windows], [1] * 4)
        self.assertEqual(len({line.split('x="')[1].split('"')[0] for line in drawn}), 2)

    def test_the_last_place_has_all_that_are_more(self):
        lines = ''.join(f'0 0 n1 port 1024 lets 192.0.2.{number}:3544 until {60_000 + number}\n' for number in range(1, 21))
        many = windows_in(ONE_CLIENT, '- 0 n1 -\n0 0 n1 port 1024 inside 10.0.0.2:4000 until 60020\n' + lines + 'total records 1\n')
        drawn = [line for line in ladder_svg.svg_of(Ladder(Report(REPORT), known=self.known, windows=many), 'x') if 'class="lets"' in line]
        self.assertEqual(len(drawn), ladder_svg.LANES)
        self.assertIn(f'and {16 - ladder_svg.NAMED} more', drawn[-1])


if __name__ == '__main__':
    unittest.main()
