"""The table of statuses that is made of the sections of a page of commands."""
import unittest

import statuses

PAGE = """# The commands

## lab

### Exit status

- `0`: the report is whole.
- `3`: it is refused; one line was written. `lint` shows it.
- `4`: FILE could not be read.

## nested

### Exit status

- `0` to `3`: as of `lab`, with NATs.
- `12`: CHAIN breaks a rule.

### See also

lab

## audit

### Exit status

- `4`: FILE could not be read.
- `7`, `8`: as of `lab`.

## lint

Ends with status 0.
"""
MADE = """| status | of | when |
|---|---|---|
| 0 | all | all was done: each section says what was written |
| 3 | `lab`, `nested` | it is refused; one line was written |
| 4 | `lab`, `audit` | FILE could not be read |
| 12 | `nested` | CHAIN breaks a rule |
"""


class Statuses(unittest.TestCase):
    def test_the_same_words_are_one_row(self):
        self.assertEqual(statuses.made(PAGE), MADE)

    def test_from_one_to_another(self):
        self.assertEqual((statuses.numbers('`2` to `5`'), statuses.numbers('`7`, `9`'), statuses.numbers('`6`')), ([2, 3, 4, 5], [7, 9], [6]))


if __name__ == '__main__':
    unittest.main()
