"""What the tools share: that nothing steers a terminal, lines of a width, and numbers as words have them."""
import argparse
import unittest
from xml.etree import ElementTree

import command


class Shown(unittest.TestCase):
    def test_a_control_character_is_written_as_in_python(self):
        for text, shown in (('a\x1b[31mb', 'a\\x1b[31mb'), ('\x00\x7f\x9b', '\\x00\\x7f\\x9b'), ('line\n', 'line\\x0a'), ('\u202etxt', '\\u202etxt'),
                            ('\U000e0001', '\\U000e0001')):
            with self.subTest(text=text):
                self.assertEqual(command.shown(text), shown)
                self.assertTrue(command.shown(text).isprintable())

    def test_a_tab_is_a_space_and_letters_stay(self):
        self.assertEqual(command.shown('a\tß → 漢'), 'a ß → 漢')

    def test_in_a_picture_nothing_is_markup(self):
        text = '<b a="1">&\x07\x1b'
        self.assertEqual(ElementTree.fromstring(f'<text>{command.xml(text)}</text>').text, '<b a="1">&\\x07\\x1b')

    def test_without_a_terminal_there_are_no_colours(self):
        self.assertEqual(command.red('nat_closed'), 'nat_closed')


class Lines(unittest.TestCase):
    def test_paragraphs_are_filled_and_lines_that_are_set_in_stay(self):
        self.assertEqual(command.wrapped('one two\nthree four\n\n  set in', 10), 'one two\nthree four\n\n  set in')

    def test_what_is_too_long_goes_on_below_what_is_said(self):
        self.assertEqual(command.folded('  do FILE   what it does', 20), ['  do FILE   what it', '            does'])


class Numbers(unittest.TestCase):
    def test_whole_numbers_without_sign(self):
        self.assertEqual([command.number(text) for text in ('0', '65535', '9' * 19)], [0, 65535, 10 ** 19 - 1])
        for text in ('', '-1', '+1', ' 1', '1.0', '٣', '1' * 20):
            with self.subTest(text=text), self.assertRaises(argparse.ArgumentTypeError):
                command.number(text)


if __name__ == '__main__':
    unittest.main()
