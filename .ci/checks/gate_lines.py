"""What the lines of `rt ci` say of its must-fail edits. `tests/unit/test_gate_lines.py` has a line of each kind."""
import collections
import re

# What `rt` says of an edit, and of a file of must-fail/ whose name is none.
TOLD = re.compile(r'rt: (?:must-fail )?(\S+?): (BAD EDIT|NOT TRIED|NOT REFUSED|refused, as it must be)(?: \((only) )?')
REFUSED = 'refused, as it must be'
# Sums and hints of `rt`, which say it once more.
SUMS = re.compile(r'rt: (note: bad must-fail edits|warning: \d+ of the \d+ must-fail edits|ok; .*(?:only by a limit|\d+ bad))')


def is_well(line):
    """Whether the line says of no edit that a contract didn't refuse it for what it changes."""
    told = TOLD.match(line)
    return not SUMS.match(line) and (told is None or (told[2] == REFUSED and not told[3]))


def read(lines, wanted):
    """What is wrong with the output where these edits are there, as CRATE/FILE, and how many it tells as refused."""
    found = [line for line in lines if not is_well(line)]
    counts = collections.Counter(told[1] for told in map(TOLD.match, lines) if told and told[2] == REFUSED)
    found += [f'{edit} is told as refused {counts[edit]} times' for edit in wanted if counts[edit] != 1]
    return found, sum(counts.values())
