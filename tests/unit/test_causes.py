"""Why a packet didn't come, and where it ended, by what is told of a small scenario; and rows in columns."""
import unittest

import aligned
import causes
import ends
from kept import Lets
from player import Trial
from shared import ONE_CLIENT, WAITED, WAITED_FOLLOW, WAITED_STATE, client, nat, scenario
from told import UNBUILT, Told, alone

TWO = scenario(nat('n1', 1), client('a', 'n1'), nat('n2', 2), client('b', 'n2')).replace(
    'events = ["advance 0", "settle"]', 'events = ["host a b 00", "next", "next", "next", "next", "next", "fault 0", "host b a 00", "host b 2001:db8::1 00", "host b a 00"]')


class Teller:
    """Answers as it is told to, and counts what it was asked."""

    def __init__(self, **answers):
        self.unknown, self.answers, self.asked = set(), {'lab': WAITED, **answers}, []

    def answer(self, words, text):
        self.asked.append(words[0])
        return (0, self.answers[words[0]]) if words[0] in self.answers else (2, 'words\n')


def told(**answers):
    return Told(Teller(**answers), TWO)


class Asked(unittest.TestCase):
    def test_each_part_is_asked_for_once(self):
        one = told(state=WAITED_STATE, follow=WAITED_FOLLOW)
        for _ in range(2):
            self.assertEqual([str(ends.end_of(one, record)) for record in one.handed_in][0], 'arrived at b, rule3')
        self.assertEqual(sorted(one.teller.asked), ['follow', 'lab', 'state'])

    def test_without_follow_nothing_is_said_of_packets(self):
        one = told(state=WAITED_STATE)
        self.assertIsNone(one.followed)
        self.assertEqual(one.teller.unknown, {'follow'})

    def test_why_it_is_not_told(self):
        self.assertIsNone(told(state=WAITED_STATE, follow=WAITED_FOLLOW).untold)
        self.assertIn('doesn\'t answer `follow` or `state`', told().untold)
        self.assertIn('doesn\'t answer `follow`', told(state=WAITED_STATE).untold)
        self.assertIn('trace its scenario', alone(WAITED).untold)
        trial = Trial()
        trial.reports[TWO] = 0, WAITED
        self.assertEqual(Told(trial, TWO).untold, UNBUILT)

    def test_without_either_the_lines_of_the_report_are_said(self):
        for one in (told(), alone(WAITED)):
            self.assertIsNone(one.followed)
            self.assertEqual([ends.end_of(one, record).state for record in one.handed_in], [ends.UNSAID] * 4)
            self.assertEqual(str(ends.end_of(one, one.handed_in[1])), 'sent; !fault=198.51.100.1:1024/41')
            self.assertNotIn('arrived', ' '.join(str(ends.end_of(one, record)) for record in one.handed_in))


class Said(unittest.TestCase):
    def setUp(self):
        self.one = told(state=WAITED_STATE, follow=WAITED_FOLLOW)

    def test_ends(self):
        said = [str(ends.end_of(self.one, record)) for record in self.one.handed_in]
        self.assertEqual(said[:2], ['arrived at b, rule3', 'lost at b, !fault: the send failed, as `fault` let it, and b doesn\'t know: nothing went out to 198.51.100.1:1024'])
        self.assertEqual(said[2], 'waits at b: b doesn\'t trust 2001:db8::1 yet; 1 try without an answer; #5, the echo request 198.51.100.2:1024 > 203.0.113.77:3544, '
                                  'was never delivered')
        self.assertEqual([ends.end_of(self.one, record).words for record in self.one.handed_in], ['arrived rule3', 'lost !fault', 'waits queued', 'lost off'])

    def test_a_closed_nat_says_whom_it_lets_in(self):
        self.assertEqual(causes.of_drop(self.one, self.one.report.records[1]),
                         'n2 never had a port 1024: nobody sent by it')
        entry = self.one.report.entries[3]
        self.assertEqual(causes.port_at(self.one, self.one.kept, 'n1', entry, self.one.kept.before(4)), 1024)
        self.assertEqual(causes.whose(self.one, 'n1', '10.0.0.2:4000'), 'a')
        self.assertEqual(causes.whose(self.one, 'n1', '10.0.0.9:4000'), '10.0.0.9:4000')

    def test_what_an_entry_lets_go_is_named(self):
        self.assertIsNotNone(self.one.kept)
        self.assertEqual({number: self.one.report.content(entry) for number, entry in self.one.report.entries.items() if number > 1},
                         {2: 'bubble, origin', 3: 'bubble', 4: 'packet', 5: 'echo request'})

    def test_names_and_addresses(self):
        count = len(self.one.kept.lines)
        self.assertEqual(self.one.name_of('2001:0:c000:201:0:fbff:39cc:9bfe', count), 'a')
        self.assertEqual(self.one.name_of('2001:db8::5', count), '2001:db8::5')
        self.assertEqual(self.one.target(self.one.handed_in[2]), '2001:db8::1')

    def test_whom_a_port_lets_in(self):
        lets = [Lets(1024, f'192.0.2.{at}', 1000 * at) for at in range(1, 6)]
        self.assertEqual(causes.whom(lets), '192.0.2.5 until 5,000 ms and 192.0.2.4 until 4,000 ms and 192.0.2.3 until 3,000 ms and 2 more')
        self.assertEqual(causes.whom([]), 'nobody')


class Columns(unittest.TestCase):
    def test_each_is_as_wide_as_its_widest_cell(self):
        self.assertEqual(aligned.columns([['a', 'bb', 'c'], ['\x1b[31mlong\x1b[0m', '', 'd'], ['x']]), ['a     bb  c', '\x1b[31mlong\x1b[0m      d', 'x'])
        self.assertEqual(aligned.columns([]), [])


class Scenarios(unittest.TestCase):
    def test_one_that_is_refused_ends_with_its_line(self):
        one = Told(Teller(), ONE_CLIENT)
        one.__dict__['played'] = 3, 'scenario seed: kind\n'
        with self.assertRaisesRegex(Exception, 'scenario seed: kind; lint says where'):
            one.must_play()


if __name__ == '__main__':
    unittest.main()
