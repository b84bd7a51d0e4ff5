"""The words of a page that are written by hand, and its long sentences."""
import unittest

import prose

PAGE = """# A page

One `word` - and | two: three.

<!-- made by .ci/pages --write of crates.txt -->
made
<!-- so far -->

```console
$ ./teredo lab FILE
0 0 0 tick
```

| a | 1 |
|---|---|
"""


class Words(unittest.TestCase):
    def test_bars_what_is_made_and_outputs_are_none(self):
        self.assertEqual(prose.words(prose.by_hand(PAGE)), 2 + 5 + 3 + 2)

    def test_the_language_of_a_block_is_none(self):
        self.assertEqual(prose.words(prose.by_hand('```text\nhere\n```\n')), 1)


class Sentences(unittest.TestCase):
    def test_where_they_end(self):
        self.assertEqual(list(prose.sentences('# Head\n\nOne is 1.5 or v. 2. Two? Three: `Four`. [five](a.md#b)\nis.\n\n- A [list](x): it.\n- B.\n')),
                         ['One is 1.5 or v. 2.', 'Two?', 'Three:', '`Four`.', '[five] is.', '- A [list]: it.', '- B.'])

    def test_long_ones_are_named(self):
        long = 'A ' + 'word ' * prose.SENTENCE_MAX + 'more.'
        count, found = prose.counted(['a.md', 'docs/CLAIMS.md'], lambda page: f'{long} Short.\n')
        self.assertEqual((count, found), (prose.SENTENCE_MAX + 3, [('a.md', long)]))
        self.assertEqual(prose.faults(count, found), [])
        self.assertEqual(len(prose.faults(prose.WORDS_MAX + 1, found * (prose.LONG_MAX + 1))), 1 + prose.LONG_MAX + 1)


if __name__ == '__main__':
    unittest.main()
