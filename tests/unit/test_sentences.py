"""The sentences beside clauses and definitions, as docs/CLAIMS.md and docs/DEFINITIONS.md have them."""
import unittest

import claims_page
import definitions_page
from sentences import Place, Sentence, clause_line, code_block, field_items, impl_items, items, parted, SEE

CALL = '''\
/// Reads a number.
#[inline(always)]
pub fn read(bytes: &[u8]) -> u8
    // A remark, which is none of it.
    /// What is read stands there,
    /// at the front.
    /// Needs: a byte.
    /// Leaves open: what follows.
    ensures found { Stands result bytes.now }
    /// - See `read`: `found`.
    /// - It is small.
    ensures small { result < 8 }

/// A number is a byte.
#[inline]
pub fn number_is_byte()
    ensures { NumberIsByte }
{}
'''.splitlines()
RECORD = '''\
-- how it ends
pub record Ends : Type 0 where
  -- | 0: all was written,
  --   whole.
  -- | See `Other`: `done`.
  -- as before
  pub done : Done
  -- no sentence
  pub failed : Failed
'''.splitlines()


class Blocks(unittest.TestCase):
    def test_clause(self):
        at = CALL.index('    ensures found { Stands result bytes.now }')
        self.assertEqual(clause_line(CALL, at, 'found'), at)
        text, = items(code_block(CALL, at))
        self.assertEqual(parted(text), ('What is read stands there, at the front.', {'Needs': 'a byte.', 'Leaves open': 'what follows.'}))

    def test_list(self):
        at = CALL.index('    ensures small { result < 8 }')
        self.assertEqual(items(code_block(CALL, at)), ['See `read`: `found`.', 'It is small.'])

    def test_law(self):
        at = CALL.index('    ensures { NumberIsByte }')
        self.assertEqual(items(code_block(CALL, clause_line(CALL, at, ''))), ['A number is a byte.'])

    def test_field(self):
        self.assertEqual(field_items(RECORD, 6), ['0: all was written, whole.', 'See `Other`: `done`.'])
        self.assertEqual(field_items(RECORD, 8), [])

    def test_impl(self):
        block = ['It answers by its table alone.', '- `answer`, `idle`: With a datagram it does', 'what its table says.', '- no clause']
        self.assertEqual(impl_items(block), [(['answer', 'idle'], 'With a datagram it does what its table says.')])

    def test_see(self):
        for text, found in (('See `found`.', ('`found`', None)), ('It is one. See `Client` as `Endpoint`: `answer`, "With a".', ('`Client` as `Endpoint`: `answer`', 'With a')),
                            ('See `A::b`: `c`.', ('`A::b`: `c`', None)), ('See the page.', None)):
            self.assertEqual(SEE.search(text) and SEE.search(text).groups(), found)


class Pages(unittest.TestCase):
    def test_entry(self):
        places = [Place('a', 'crates/a/src/reader.rt', number, owner, call, label, trait)
                  for number, (owner, call, label, trait) in enumerate((('', 'read', 'found', ''), ('', 'look', 'found', ''), ('', 'read', 'only', ''), ('Ep', '', 'Eq', 'Eq')))]
        sentence = Sentence('It stands there.', {'Needs': 'a byte.', 'Leaves open': 'the rest.'}, places[0], places)
        self.assertEqual(claims_page.entry(sentence, ['a_byte_too_far'], 'a'), '- It stands there.\n  `read`: `found`, `only`; `look`: `found`; `Eq` of `Ep`. '
                         'In [reader.rt](../crates/a/src/reader.rt). Needs: a byte. Refuses `a_byte_too_far`. Leaves open: the rest.\n')

    def test_edit(self):
        self.assertEqual(claims_page.BREAKS.findall('# breaks: A::b: c\n# breaks: d, "It is"\nfile: src/a.rt\n'), [('A::b: c', ''), ('d', 'It is')])

    def test_definition(self):
        told = definitions_page.Told(['-- *live*, of an endpoint: at the address of a NAT.', '-- x leads to it', '-- Premise: an endpoint that is', '-- `there`.'])
        self.assertEqual((told.words, told.text, told.premise), ([('live', 'of an endpoint')], '*live*, of an endpoint: at the address of a NAT. x leads to it', 'an endpoint that is `there`.'))


if __name__ == '__main__':
    unittest.main()
