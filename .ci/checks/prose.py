"""How much of the pages is written by hand, and which of their sentences are long.

A word has a letter or a digit, and spaces around it: the bars of a table are none. By hand isn't what is made (regions.py), nor what a
command writes below it in a block of the console, which tests/quoted.py plays. A sentence ends at a full stop, a question mark or a
colon; what is in a table or a block is none.
"""
import re

import regions

# A page that is made as a whole, or tells of tests, isn't counted.
LEFT_OUT = ('docs/CLAIMS.md', 'docs/DEFINITIONS.md', 'tests/README.md')
WORDS_MAX, SENTENCE_MAX, LONG_MAX = 40_000, 35, 10
# How many words by hand a page should have at most, or several together: more is a remark.
BUDGETS = {('README.md',): 900, ('docs/README.md',): 150, ('docs/START.md',): 1_500, ('docs/REACH.md',): 1_800, ('docs/GUIDE.md',): 4_000,
           ('docs/SCENARIOS.md',): 3_000, ('docs/TESTING.md', 'docs/CAPTURES.md'): 2_200, ('docs/TOOLS.md',): 1_000,
           ('docs/SERVE.md', 'SECURITY.md'): 3_800, ('docs/RULES.md',): 6_500, ('docs/SURE.md',): 3_500, ('docs/DECISIONS.md',): 2_800,
           ('ARCHITECTURE.md',): 3_500,
           ('CONTRIBUTING.md', 'docs/PERFORMANCE.md', 'docs/TRIED.md', 'CHANGELOG.md', 'docs/GLOSSARY.md'): 5_000}
CONSOLE = re.compile(r'^```console\n.*?^```', re.M | re.S)
BLOCK = re.compile(r'^```.*?^```', re.M | re.S)
FENCE = re.compile(r'^```\w*$', re.M)
PART = re.compile(r'\n\s*\n|\n(?=[-*] |\d+\. |#|\|)')
END = re.compile(r'(?<=[.!?:])\s+(?=[A-Z`\[*"(])')


def by_hand(page):
    """A page without what is made, and without what commands write."""
    commands = CONSOLE.sub(lambda found: '\n'.join(line for line in found[0].split('\n') if line.startswith('$ ')), regions.by_hand(page))
    return FENCE.sub('', commands)


def words(text):
    return sum(any(letter.isalnum() for letter in word) for word in text.split())


def sentences(page):
    """The sentences that are written by hand, without the targets of links."""
    for part in PART.split(BLOCK.sub('\n\n', regions.by_hand(page))):
        if not part.lstrip().startswith(('|', '#')):
            yield from END.split(' '.join(re.sub(r'\]\([^)]*\)', ']', part).split()))


def counted(pages, read):
    """How many words are written by hand, and the long sentences, each with its page."""
    texts = {page: read(page) for page in pages if page not in LEFT_OUT}
    return sum(words(by_hand(text)) for text in texts.values()), [
        (page, sentence) for page, text in texts.items() for sentence in sentences(text) if words(sentence) > SENTENCE_MAX]


def remarks(read):
    """Which pages are above their budget."""
    found = ((pages, sum(words(by_hand(read(page))) for page in pages), most) for pages, most in BUDGETS.items())
    return [f'{", ".join(pages)}: {count:,} words by hand, and {most:,} are wanted' for pages, count, most in found if count > most]


def faults(count, long):
    return ([f'the pages have {count:,} words by hand, above {WORDS_MAX:,}'] if count > WORDS_MAX else []) + (
        [f'{page}: a long sentence, and {LONG_MAX} others are: {sentence[:80]}' for page, sentence in long] if len(long) > LONG_MAX else [])
