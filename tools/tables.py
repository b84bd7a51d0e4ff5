"""What the scripts share that make a table with the program: its words, a whole report, and the comparison with what is stored."""
import os

import command


def report(program, text):
    """The report of a scenario that is played to its end."""
    status, written = command.play(program, text)
    if status:
        raise command.Refusal(f'status {status}: {written}')
    return written


def records(program, text):
    """The words of each record of that report."""
    return [line.split() for line in report(program, text).splitlines()[:-1]]


def words(doc):
    """A parser of such a script's words, and those of them of which one alone may stand."""
    parser = command.words(doc)
    parser.add_argument('program', metavar='PROGRAM', nargs='?', default=command.PROGRAM)
    what = parser.add_mutually_exclusive_group()
    what.add_argument('--check', action='store_true', help='compare with what is stored')
    return parser, what


def print_or_compare(doc, stored_at, table):
    """Prints the table of a program, or with `--check` what differs in it from the stored one; the status."""
    options = words(doc)[0].parse_args()
    made = table(os.path.abspath(options.program))
    if not options.check:
        print(made, end='')
        return 0
    stored = command.read(stored_at)
    for old, new in zip(stored.splitlines(), made.splitlines()):
        if old != new:
            print(f'stored {old!r}\nmade   {new!r}')
    return 0 if made == stored else command.FOUND


def print_found(found, is_check):
    """Prints what was found, each on a line of its own: without a check a table, and with one what differs; the status."""
    print('\n'.join(found), end='\n' if found else '')
    return command.FOUND if is_check and found else 0
