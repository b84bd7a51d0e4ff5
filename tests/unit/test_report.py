"""A report, read: each part of a line, a line made again of its record, and what is no report."""
import unittest

from command import Refusal
from report import Entry, Report, TeredoAddress, is_report, record_of, teredo_parts
from shared import CONE_TEST, TOTALS

# Each part that a line may have, as the grammar of the page has it.
LINES = [
    '0 0 0 tick a rs_cone #0=198.51.100.1:1024>192.0.2.1:3544/61',
    '12 4000 7 next - no_entry',
    '3 12000 1 deliver:9 a qualified_cone is 2001:0:c000:201:8000:fbff:39cc:9bfe',
    '26 12000 11 deliver:16 a rule2 late/45 late/46 gone/2 #17=198.51.100.1:1024>203.0.113.9:3545/45 #18=six:r1/56 #19=six/45',
    '9 1 2 deliver:3 b rule1 handed/0',
    '5 1 2 host a queued #3=198.51.100.1:1024>192.0.2.1:3544/40 !hairpin=198.51.100.1:1025/40',
    '5 1 2 copy:3 - put #4=192.0.2.77:0>192.0.2.1:3544/61',
    '5 1 2 restart n1 done',
]


def mark_again(mark):
    if not isinstance(mark, Entry):
        return f'!{mark.word}={mark.target}/{mark.length}'
    way = (f'six:{mark.relay}' if mark.relay else 'six') if mark.is_six else f'{mark.source}>{mark.target}'
    return f'#{mark.number}={way}/{mark.length}'


def line_again(record):
    """The line of a record, by the grammar of docs/SCENARIOS.md, "The report"."""
    words = [str(record.index), str(record.moment), str(record.event), record.act, record.node, record.fate]
    words += ['is', record.address] if record.address else []
    words += [f'handed/{record.handed}'] if record.handed is not None else []
    words += [f'late/{length}' for length in record.late] + ([f'gone/{record.gone}'] if record.gone else [])
    return ' '.join(words + [mark_again(mark) for mark in record.marks])


class Lines(unittest.TestCase):
    def test_a_line_is_made_again_of_its_record(self):
        for line in LINES:
            with self.subTest(line=line):
                self.assertEqual(line_again(record_of(line)), line)

    def test_the_parts_of_a_line(self):
        record = record_of(LINES[5])
        self.assertEqual((record.index, record.moment, record.event, record.act, record.node, record.fate), (5, 1, 2, 'host', 'a', 'queued'))
        entry, = record.entries
        self.assertEqual((entry.number, entry.source, entry.target, entry.length), (3, '198.51.100.1:1024', '192.0.2.1:3544', 40))
        self.assertEqual([(loss.word, loss.target, loss.length) for loss in record.losses], [('hairpin', '198.51.100.1:1025', 40)])
        self.assertIsNone(record.delivered)
        self.assertEqual(record_of(LINES[3]).delivered, 16)

    def test_words_that_are_not_known_are_passed_over(self):
        record = record_of('0 0 0 sleep a dreamt snored/7 !frozen=192.0.2.1:3544/61 ?x')
        self.assertEqual((record.act, record.fate, record.handed), ('sleep', 'dreamt', None))
        self.assertEqual([loss.word for loss in record.losses], ['frozen'])

    def test_what_is_no_line(self):
        for line in ('', '0 0 0 tick a', '0 0 0 tick A rs_cone', '-1 0 0 tick a rs_cone', '0 0 0 tick a\x1b rs_cone', '0 0 0 deliver a kept',
                     '0 0 0 tick a rs_cone is ::1%x', '0 0 0 tick a rs_cone is 192.0.2.1'):
            with self.subTest(line=line), self.assertRaises(Refusal):
                record_of(line)


class Whole(unittest.TestCase):
    def test_entries_and_their_deliveries(self):
        report = Report(CONE_TEST)
        self.assertEqual([record.fate for record in report.records], ['rs_cone', 'done', 'advert', 'nat_closed', 'done'])
        self.assertEqual(report.totals, TOTALS)
        self.assertEqual(report.came_by(report.records[3]), report.entries[1])
        self.assertEqual([record.index for record in report.delivered(report.entries[0])], [2])
        self.assertEqual([report.content(entry) for entry in report.entries.values()], ['solicitation', 'advertisement'])
        self.assertEqual(report.nodes_at(), {'198.51.100.1:1024': 'a', '192.0.2.1:3544': 's1', '192.0.2.2:3544': 's1'})
        self.assertEqual(report.clients(), ['a'])

    def test_a_wire_that_is_full_ends_a_report_too(self):
        self.assertEqual(Report('wire full\n').totals, 'wire full')

    def test_an_address_is_told_until_a_restart(self):
        address = '2001:0:c000:201:8000:fbff:39cc:9bfe'
        report = Report(f'0 0 0 tick a same is {address}\n1 0 1 restart a done\n2 0 2 settle - done\ntotal records 3\n')
        self.assertEqual([report.address_at('a', record) for record in report.records], [None, address, None])

    def test_what_is_no_whole_report(self):
        lines = CONE_TEST.splitlines(keepends=True)
        for text in (''.join(lines[:-1]), CONE_TEST + lines[0], ''.join(lines[1:]), CONE_TEST.replace('#1=', '#2='),
                     CONE_TEST.replace('deliver:1', 'deliver:7'), ''):
            with self.subTest(text=text), self.assertRaises(Refusal):
                Report(text)

    def test_a_report_is_told_from_a_scenario(self):
        self.assertTrue(is_report(CONE_TEST) and is_report('wire full\n') and is_report(TOTALS))
        self.assertFalse(is_report('seed = 1\nevents = []\n') or is_report(''))


class Addresses(unittest.TestCase):
    """RFC 4380, section 4: prefix, server, flags, and the mapped port and address with every bit inverted."""

    def test_the_parts_of_an_address(self):
        self.assertEqual(teredo_parts('2001:0:c000:201:8000:fbff:39cc:9bfe'), TeredoAddress('192.0.2.1', True, '198.51.100.1:1024'))
        self.assertEqual(teredo_parts('2001:0:c000:201:0:fbfe:39cc:9bfd'), TeredoAddress('192.0.2.1', False, '198.51.100.2:1025'))


if __name__ == '__main__':
    unittest.main()
