#!/usr/bin/env python3
"""A report as a table of comma-separated values: a head, and a row for each record.

FILE is a report of `lab` or `nested`, or a scenario, which is played first; `-` is standard input. The column `of` has the
number of the entry that was delivered or copied, `drop` is 1 where the fate is a drop, `late` has lengths with spaces
between them, `entries` is how many the record made, and `bytes` how long they are together. The totals have no row.

  csv FILE >REPORT.csv
  csv FILE | awk -F, '$8 == 1 {count[$7]++} END {for (fate in count) print fate, count[fate]}'    drops by their fates
"""
import csv
import sys
from typing import Any

sys.dont_write_bytecode = True

import command
from json_lines import line_of
from report import Record
from trace import load

COLUMNS = ('record', 'ms', 'event', 'act', 'of', 'node', 'fate', 'drop', 'address', 'handed', 'late', 'gone', 'entries', 'bytes', 'lost')


def row_of(record: Record) -> list[Any]:
    line = line_of(record)
    entries = record.entries
    counted = {'drop': int(line['drop']), 'late': ' '.join(map(str, record.late)), 'entries': len(entries),
               'bytes': sum(entry.length for entry in entries), 'lost': ' '.join(loss.word for loss in record.losses)}
    return [(line | counted).get(column, '') for column in COLUMNS]


def main() -> int:
    told = load(command.over_report(__doc__).parse_args())
    table = csv.writer(sys.stdout, lineterminator='\n')
    table.writerow(COLUMNS)
    table.writerows(row_of(record) for record in told.report.records)
    return 0


if __name__ == '__main__':
    command.run(main)
