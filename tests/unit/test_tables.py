"""A report as CSV and as JSON: the keys of docs/report.schema.json, and the columns of `csv`."""
import unittest

import csv_table
import json_lines
from report import Report, record_of
from shared import CONE_TEST

RULE_2 = ('26 12000 11 deliver:16 a rule2 late/45 late/46 gone/2 #17=198.51.100.1:1024>203.0.113.9:3545/45 #18=six:r1/56 #19=six/40'
          ' !full=198.51.100.9:7/40')


class Json(unittest.TestCase):
    def test_a_line_for_each_record_and_the_totals(self):
        lines = json_lines.lines_of(Report(CONE_TEST))
        self.assertEqual(lines[0], {'record': 0, 'ms': 0, 'event': 0, 'act': 'tick', 'node': 'a', 'fate': 'rs_cone', 'drop': False, 'marks': [
            {'entry': 0, 'from': '198.51.100.1:1024', 'to': '192.0.2.1:3544', 'bytes': 61}]})
        self.assertEqual(lines[1], {'record': 1, 'ms': 0, 'event': 0, 'act': 'advance', 'fate': 'done', 'drop': False})
        self.assertEqual(lines[3], {'record': 3, 'ms': 0, 'event': 1, 'act': 'deliver', 'of': 1, 'node': 'n1', 'fate': 'nat_closed', 'drop': True})
        self.assertEqual(lines[5], {'totals': {'records': 5, 'entries': 2, 'delivered': 2, 'handed': 0, 'kept': 0, 'dropped': 1}})

    def test_each_kind_of_mark(self):
        line = json_lines.line_of(record_of(RULE_2))
        self.assertEqual(line['marks'], [
            {'entry': 17, 'from': '198.51.100.1:1024', 'to': '203.0.113.9:3545', 'bytes': 45}, {'entry': 18, 'ipv6': True, 'bytes': 56, 'relay': 'r1'},
            {'entry': 19, 'ipv6': True, 'bytes': 40}, {'lost': 'full', 'to': '198.51.100.9:7', 'bytes': 40}])
        self.assertEqual((line['late'], line['gone']), ([45, 46], 2))
        self.assertNotIn('handed', line)

    def test_a_packet_of_no_bytes_is_handed_too(self):
        self.assertEqual(json_lines.line_of(record_of('0 0 0 deliver:3 a rule1 handed/0'))['handed'], 0)

    def test_a_full_wire(self):
        self.assertEqual(json_lines.lines_of(Report('wire full\n')), [{'wire': 'full'}])


class Csv(unittest.TestCase):
    def row(self, line):
        row = csv_table.row_of(record_of(line))
        self.assertEqual(len(row), len(csv_table.COLUMNS))
        return {column: cell for column, cell in zip(csv_table.COLUMNS, row) if cell != ''}

    def test_the_marks_are_counted(self):
        self.assertEqual(self.row(RULE_2), {
            'record': 26, 'ms': 12000, 'event': 11, 'act': 'deliver', 'of': 16, 'node': 'a', 'fate': 'rule2', 'drop': 0, 'late': '45 46', 'gone': 2,
            'entries': 3, 'bytes': 141, 'lost': 'full'})

    def test_a_drop_is_1(self):
        self.assertEqual(self.row('3 0 1 deliver:1 n1 nat_closed'), {
            'record': 3, 'ms': 0, 'event': 1, 'act': 'deliver', 'of': 1, 'node': 'n1', 'fate': 'nat_closed', 'drop': 1, 'entries': 0, 'bytes': 0})


if __name__ == '__main__':
    unittest.main()
