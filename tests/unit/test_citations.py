"""How proofs cite lower crates: one law, one lemma file, and each way that is none."""
import unittest

import citations

LAW = '//! Laws.\n\n/// One.\npub fn one_is()\n    ensures { OneIs }\n{}\n'
BELOW = {
    'crates/low/src/laws.rt': LAW,
    'crates/low/proofs/Lib.antt': 'pub mod LawProofs\npub mod Lists\npub mod Called\nmod Own\n',
    'crates/low/proofs/LawProofs.antt': '-- Laws.\npub use Rattle.low.proofs.Lists.{one as one_is}\n',
    'crates/low/proofs/Called.antt': 'use Rattle.low.proofs.code.call.Goals as goal\n',
}


def faults(text, **more):
    """What is wrong where a file of the crate above is this text."""
    files = {**BELOW, 'crates/high/proofs/Facts.antt': text, **more}
    return list(citations.faults(['low', 'high'], sorted(files), files.__getitem__))


class Cited(unittest.TestCase):
    def test_law_by_name(self):
        self.assertEqual(faults('use Rattle.low.proofs.LawProofs.{one_is}\n'), [])

    def test_lemma_of_public_file(self):
        self.assertEqual(faults('use Rattle.low.proofs.Lists.{two}\n\npub three : ℕ → OneIs\nthree n = two\n'), [])

    def test_law_from_its_file(self):
        self.assertEqual(faults('use Rattle.low.proofs.Lists.{two, one}\n'),
                         ['crates/high/proofs/Facts.antt: one of low is a law: its name is in LawProofs'])

    def test_file_that_is_its_crate_s(self):
        self.assertEqual(faults('use Rattle.low.proofs.Own.{two}\n'), ['crates/high/proofs/Facts.antt: low keeps its file Own to itself'])

    def test_file_on_code(self):
        self.assertEqual(faults('use Rattle.low.proofs.Called.{two}\n'), ["crates/high/proofs/Facts.antt: low's file Called speaks of code"])


class Handed(unittest.TestCase):
    def assert_handed(self, text):
        self.assertEqual(faults(text), ['crates/high/proofs/Facts.antt: takes the law OneIs, which it can name'])

    def test_parameter(self):
        self.assert_handed('pub three : OneIs → ℕ → ℕ\nthree law n = n\n')

    def test_named_parameter(self):
        self.assert_handed('pub three : (law : OneIs) (n : ℕ) → ℕ\nthree law n = n\n')

    def test_section(self):
        self.assert_handed('module _ (law : OneIs) where\n  pub three : ℕ → ℕ\n  three n = n\n')

    def test_record(self):
        self.assert_handed('pub record Laws : Type 0 where\n  pub one : OneIs\n')

    def test_law_with_a_body(self):
        self.assertEqual(faults('', **{'crates/high/src/laws.rt': 'fn all_are()\n    ensures { AllAre }\n{\n    low::one_is();\n}\n'}),
                         ['crates/high/src/laws.rt: the law `all_are` has a body'])


if __name__ == '__main__':
    unittest.main()
