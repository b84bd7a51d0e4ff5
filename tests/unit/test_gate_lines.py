"""What `.ci/edits` makes of the output of `rt ci`: a line of each kind that the kit prints of an edit."""
import unittest

import gate_lines

REFUSED = ('rt: must-fail icmp6/a.edit: refused, as it must be: src/a.rt:3:9: error: no proof', 'rt: must-fail icmp6/a.edit: refused, as it must be')
WELL = (*REFUSED, 'rt: ok; handles allowed: Net; must-fail edits: 9 refused; every proof and must-fail edit was done in this run', 'rt: icmp6 proved', '')
BY_LIMIT = ('rt: must-fail icmp6/a.edit: refused, as it must be (only by a limit of the prover, which gave no verdict, so this says less of the '
            'contract: choose a change that it refuses sooner): src/a.rt:3:9: error')
BY_NAME = ('rt: must-fail icmp6/a.edit: refused, as it must be (only because a proof file names what the edit took away, so this says little of '
           'the contract: change a value and keep the names): proofs/A.antt:1:2: error')
BAD = (
    BY_LIMIT,
    BY_NAME,
    'rt: must-fail icmp6/a.edit: BAD EDIT: line 3 stands in src/a.rt twice',
    'rt: crates/icmp6/must-fail/a: BAD EDIT: an edit stands right in must-fail/',
    'rt: must-fail icmp6/a.edit: NOT TRIED: its check was killed, most likely for memory, so nothing is known of it: run this again',
    'rt: must-fail icmp6/a.edit: NOT REFUSED: the crate is still proved with this edit',
    'rt: note: bad must-fail edits, as told above: 1. They fail nothing here',
    'rt: warning: 3 of the 4 must-fail edits of icmp6 are bad, so next to nothing shows',
    'rt: ok; handles allowed: Net; must-fail edits: 9 refused, 1 of them only by a limit; every proof was done in this run',
    'rt: ok; handles allowed: Net; must-fail edits: 9 refused, 2 bad; every proof was done in this run',
)
EDIT = 'icmp6/a.edit'


class Lines(unittest.TestCase):
    def test_lines_that_are_well(self):
        for line in WELL:
            with self.subTest(line=line):
                self.assertTrue(gate_lines.is_well(line))

    def test_lines_that_fail(self):
        for line in BAD:
            with self.subTest(line=line):
                self.assertFalse(gate_lines.is_well(line))


class Output(unittest.TestCase):
    def test_an_edit_that_a_contract_refuses(self):
        for line in REFUSED:
            with self.subTest(line=line):
                self.assertEqual(gate_lines.read(['rt: icmp6 proved', line], [EDIT]), ([], 1))

    def test_an_edit_that_is_refused_for_something_else(self):
        for line in (BY_NAME, BY_LIMIT):
            with self.subTest(line=line):
                self.assertEqual(gate_lines.read([line], [EDIT]), ([line], 1))

    def test_an_edit_that_is_not_told_or_told_twice(self):
        self.assertEqual(gate_lines.read([], [EDIT]), ([f'{EDIT} is told as refused 0 times'], 0))
        self.assertEqual(gate_lines.read(list(REFUSED), [EDIT]), ([f'{EDIT} is told as refused 2 times'], 2))
        self.assertEqual(gate_lines.read([REFUSED[0].replace('a.edit', 'b.edit')], [EDIT]), ([f'{EDIT} is told as refused 0 times'], 1))


if __name__ == '__main__':
    unittest.main()
