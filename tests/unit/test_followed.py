"""Where packets went: the lines of `follow` read, and what they tell."""
import unittest

from command import Refusal
from followed import ARRIVES, End, Load, Packet, followed_of
from shared import WAITED_FOLLOW

ECHOED = '''\
55 12000 a held_test 2 held
68 12000 h1 echoed 5 arrives
68 12000 h1 echoed 5 back goes #40=six:r1/48
69 12000 - nowhere 5 back ends
packet 2 53 h2 held a
packet 5 66 a arrived 68 back lost 69
packet 6 67 a wire 41
total packets 3 arrived 1 waits 0 held 1 wire 1 lost 0
'''


class Lines(unittest.TestCase):
    def test_lines_are_made_again(self):
        for text in (WAITED_FOLLOW, ECHOED, '36 12000 a queued 0 waits\nwire full\n', 'total packets 0 arrived 0 waits 0 held 0 wire 0 lost 0\n'):
            with self.subTest(text=text[:30]):
                self.assertEqual(followed_of(text).lines(), text.splitlines())

    def test_what_they_tell(self):
        told = followed_of(ECHOED)
        self.assertEqual(told.packets[1], Packet(5, 66, 'a', End('arrived', 68), End('lost', 69)))
        self.assertEqual(told.packets[0].end, End('held', node='a'))
        self.assertEqual(told.carried, {40: Load(5, True)})
        self.assertEqual([str(step) for step in told.steps_of(Load(5))], ['68 12000 h1 echoed 5 arrives'])
        self.assertEqual(told.last(Load(5, True), 'goes').entry, 40)
        self.assertIsNone(told.last(Load(5, True), ARRIVES))
        self.assertEqual(followed_of(WAITED_FOLLOW).marks_of(7), {'!fault=198.51.100.1:1024/41'})
        self.assertIsNone(followed_of(WAITED_FOLLOW).steps_of(Load(1))[0].entry)

    def test_what_is_no_line(self):
        for text in ('', 'packet 0 0 a arrived 5\n', '0 0 a queued 0 sleeps\n' + ECHOED, ECHOED + ECHOED, ECHOED.replace('packet 2', 'packet x')):
            with self.subTest(text=text[:30]), self.assertRaises(Refusal):
                followed_of(text)


if __name__ == '__main__':
    unittest.main()
