"""What each node keeps: lines read and made again, and what holds between them, by what docs/RULES.md has of NATs and peers."""
import unittest

from command import Refusal
from kept import FRESH_MS, LISTED_MS, Client, Kept, Lets, Peer, Port, Relay, Void, line_of, lines_of, text_of
from shared import STATE

LINES = ['- 0 n1 -', '- 0 a cone - due 0', '0 0 a cone - due 4000', '7 1 a symmetric - due -', '0 0 n1 port 1024 inside 10.0.0.2:4000 until 60000',
         '0 0 n1 port 1024 inside 10.0.0.2:4000 to 192.0.2.1:3544 until 60000', '0 0 n1 port 1024 lets 192.0.2.1:3544 until 60000',
         '3 0 n1 port 1024 lets 192.0.2.1 until 60000', '9 5 n1 inside 10.0.0.2:4000 -', '15 12000 r1 due 14000',
         '15 12000 r1 peer 2001:0:c000:201:0:fbff:39cc:9bfe at - heard - touched 12000 tries 12000 waits 1',
         '19 12000 a peer 2001:db8::1 at 203.0.113.9:3545 heard 9 touched 12000 tries 8000,12000 nonce 0ebb89de3baa7bd4 waits 0 held 1']
PEER = '2001:0:c000:201:0:fbff:39cc:9bfe'


class Lines(unittest.TestCase):
    def test_a_line_is_made_again(self):
        for line in LINES:
            with self.subTest(line=line):
                read = line_of(line)
                index = '-' if read.record < 0 else str(read.record)
                self.assertEqual(f'{index} {read.moment} {read.node} {text_of(read.what)}', line)

    def test_what_lines_say(self):
        self.assertEqual([line_of(LINES[at]).what for at in (0, 2, 5, 6, 8, 9)],
                         [Void(), Client('cone', None, 4000), Port(1024, '10.0.0.2:4000', '192.0.2.1:3544', 60000), Lets(1024, '192.0.2.1:3544', 60000),
                          Void('10.0.0.2:4000'), Relay(14000)])
        self.assertEqual(line_of(LINES[11]).what, Peer('2001:db8::1', '203.0.113.9:3545', 9, 12000, (8000, 12000), '0ebb89de3baa7bd4', 0, 1))

    def test_what_is_no_line(self):
        for line in ('', '0 0 n1', 'x 0 n1 -', '0 0 n1 port', '0 0 n1 port x inside 1 until 2', '0 0 a peer ::1 at -', '0 0 a cone - due', '0 0 a cone - due x'):
            with self.subTest(line=line), self.assertRaises(Refusal):
                line_of(line)
        for text in ('', STATE + 'total records 3\n', STATE.rpartition('total')[0]):
            with self.subTest(text=text[-30:]), self.assertRaises(Refusal):
                Kept(text)


class Moments(unittest.TestCase):
    def setUp(self):
        self.kept = Kept(STATE)

    def at(self, record, now=None):
        """The lines of all nodes behind a record, at its moment or at another one."""
        count = self.kept.after(record)
        return [line.partition(' ')[2] for line in lines_of(self.kept, count, record, self.kept.lines[count - 1].moment if now is None else now)]

    def test_later_lines_take_the_place_of_earlier_ones(self):
        self.assertEqual(self.at(-1), ['0 a cone - due 0', '0 r1 due -'])
        self.assertEqual(self.at(1), ['0 n1 port 1024 inside 10.0.0.2:4000 until 60000', '0 n1 port 1024 lets 192.0.2.1:3544 until 60000', '0 a cone - due 4000', '0 r1 due -'])
        self.assertEqual(self.kept.own('a', self.kept.before(3)), Client('cone', None, 4000))
        self.assertEqual(self.kept.address('a', self.kept.after(3)), PEER)

    def test_ports_and_whom_they_let_in_end(self):
        count = len(self.kept.lines)
        self.assertEqual([one.source for one in self.kept.lets('n1', 1024, self.kept.after(3), 59_999)], ['192.0.2.1:3544', '203.0.113.9:3545'])
        self.assertEqual([one.source for one in self.kept.lets('n1', 1024, self.kept.after(3), 60_000)], ['203.0.113.9:3545'])
        self.assertIsNone(self.kept.port('n1', 1024, self.kept.after(3), 61_000))
        self.assertEqual(self.kept.ports('n1', count, 2000), [])  # forgotten

    def test_peers_end_and_their_tries(self):
        after = self.kept.after(3)
        peer = self.kept.peer('r1', PEER, after, 1000)
        self.assertEqual((peer.tries, peer.waits, peer.is_fresh(1000)), ((1000,), 1, False))
        self.assertIsNone(self.kept.peer('r1', PEER, after, 1000 + LISTED_MS))
        self.assertEqual(Peer('::1', touched=5, tries=(1, 5)).tries_at(1 + LISTED_MS), (5,))
        young, spent = Peer('::1', touched=5000, tries=(5000,)), Peer('::1', touched=9000, tries=(1000, 4000, 6000, 9000))
        self.assertEqual([young.barred_until(now) for now in (5000, 6999, 7000)], [7000, 7000, None])
        self.assertEqual([spent.barred_until(now) for now in (9000, 300_999, 301_000)], [301_000, 301_000, None])
        self.assertIsNone(Peer('::1', '192.0.2.9:1', 7, 7).barred_until(7))
        fresh = Peer('::1', '192.0.2.9:1', 7, 7)
        self.assertEqual((fresh.is_fresh(6 + FRESH_MS), fresh.is_fresh(7 + FRESH_MS)), (True, False))

    def test_void_ones_fall_away(self):
        self.assertEqual(self.at(5), ['2000 a cone - due 2000', '2000 r1 due 3000', f'2000 r1 peer {PEER} at - heard - touched 1000 tries 1000 waits 1'])
        self.assertIsNone(self.kept.touched(5, 'a'))
        self.assertEqual(self.kept.touched(3, 'r1').address, PEER)


if __name__ == '__main__':
    unittest.main()
