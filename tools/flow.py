#!/usr/bin/env python3
"""Who sent what to whom: a report as a ladder, in text or as a picture.

FILE is a report of `lab` or `nested`, or a scenario, which is played first; `-` is standard input. A column is a node; an arrow is an
entry of the wire, from who made it to where it ended, at the moment of its delivery. Lost ones are cut off.

The columns are in the order of the nodes: clients, their NATs, servers, and at the other end relays and hosts, or if there are none
the other half of the clients.

  flow FILE                         the ladder as text, the records beside it; at a terminal it has its columns
  flow FILE --wide                  the same, however wide the terminal is
  flow FILE --narrow                the same in 80 columns
  flow FILE --ends                  with the ports at the arrows' ends; Q: is before that of a server's second address
  flow FILE --svg >PICTURE.svg      a picture, in black and white; a bar shows how long a NAT lets somebody in
  flow FILE --from 20 --to 25       only records 20 to 25
  flow FILE --nodes a,n1,s1,n2,b    these columns first, in this order
"""
import os
import sys

sys.dont_write_bytecode = True

import command
import ladder_svg
import ladder_text
from ladder import Ladder
from told import Told
from trace import load
from windows import windows_of


def options_of(words):
    parser = command.over_report(__doc__)
    look = parser.add_mutually_exclusive_group()
    look.add_argument('--svg', action='store_true', help='a picture in SVG')
    look.add_argument('--wide', action='store_true', help='text as wide as it takes, also at a terminal')
    look.add_argument('--narrow', action='store_true', help='text of 80 columns')
    parser.add_argument('--ends', action='store_true', help="ports at the arrows' ends")
    parser.add_argument('--from', dest='first', metavar='N', type=command.number, default=0, help='the first record')
    parser.add_argument('--to', dest='last', metavar='N', type=command.number, help='the last record')
    parser.add_argument('--nodes', metavar='NAMES', default='', help='columns in their order, with commas between them')
    return parser.parse_args(words)


def ladder_of(told: Told, options):
    """The ladder of a scenario, or of a report alone."""
    windows = windows_of(told.kept, told.known)  # by whose lines entries are named that let go what waited
    return Ladder(told.report, options.first, options.last, [name for name in options.nodes.split(',') if name], told.known, windows)


def lines_of(options):
    """The lines of the ladder or of the picture that is asked for."""
    ladder = ladder_of(load(options), options)
    if options.svg:
        return ladder_svg.svg_of(ladder, f'{os.path.basename(options.file)}: who sent what to whom', options.ends)
    if sys.stdout.isatty() and not options.wide and not options.narrow:
        return ladder_text.fitting_of(ladder, options.ends, command.columns())
    return (ladder_text.narrow_of if options.narrow else ladder_text.text_of)(ladder, options.ends)


def main():
    options = options_of(sys.argv[1:])
    if not options.svg:
        command.tell_fates()
    command.show(lines_of(options))
    return 0


if __name__ == '__main__':
    command.run(main)
