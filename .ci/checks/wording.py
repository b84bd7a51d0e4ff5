"""The words of a text of Rattle or of its logic, without comments and layout, and the names that its `use` lines bring in."""
import re

STRING = r'"(?:\\.|[^"\\])*"'
CHARACTER = r"(?<![\w'])b?'(?:\\[^\n']+|\\'|[^\\'\n])'"
# A comment, or else what is kept. In the logic a comment begins with two dashes where a word may begin; `{-` begins a longer one,
# which nobody writes here.
DASHES = r'(?<![^\s()\[\]{};,])--[^\n]*'
LOGIC_COMMENT = re.compile(rf'({STRING})|{DASHES}')
CODE_COMMENT = re.compile(rf'({STRING}|{CHARACTER})|//[^\n]*|/\*.*?\*/', re.S)
BOTH_COMMENTS = re.compile(rf'({STRING}|{CHARACTER})|//[^\n]*|/\*.*?\*/|{DASHES}', re.S)
# What is no comment where it stands, or none that is known here.
STRANGE_IN_LOGIC, STRANGE_IN_CODE = re.compile(r'//|/\*|\{-|-\}'), re.compile(DASHES)
WORD = re.compile(rf'{STRING}|{CHARACTER}|[()\[\]{{}},;]|[^\s()\[\]{{}},;"]+')
CODE_WORD = re.compile(rf'{STRING}|{CHARACTER}|\w+|\S')
USE = re.compile(r'(?:^|(?<=[\s;{}]))(?:pub )?(ghost )?use\s+([\w.:\-]+?)(?:(?:\.|::)\{([^{}]*)\}|\s+as\s+([\w\-]+))?\s*(?:;|$)', re.M)
CLOSING = (')', ']', '}', '>')


def without_comments(text, comment):
    """The text with spaces in place of comments."""
    return comment.sub(lambda found: found[1] or re.sub(r'[^\n]', ' ', found[0]), text)


def strange(text, is_logic):
    """What a text has that may be a comment or none, and so may hide something here."""
    bare = re.sub(rf'{STRING}|{CHARACTER}', '""', without_comments(text, LOGIC_COMMENT if is_logic else CODE_COMMENT))
    return (STRANGE_IN_LOGIC if is_logic else STRANGE_IN_CODE).search(bare)


def words(text, word=WORD):
    """The words of a text; a comma before a closing bracket is layout."""
    found = word.findall(text)
    return [each for each, after in zip(found, [*found[1:], '']) if each != ',' or after not in CLOSING]


def uses(text):
    """What `use` lines bring in: for the logic and for code, by the name here, each path and the name there."""
    brought = {True: {}, False: {}}
    for ghost, path, several, alias in USE.findall(text):
        is_logic, parts = bool(ghost) or path.startswith('Rattle.'), tuple(part for part in re.split(r'\.|::', path) if part != 'Rattle')
        for part in several.split(',') if several else ():
            there, _, here = (word.strip() for word in part.partition(' as '))
            brought[is_logic].setdefault(here or there, set()).add((parts, there))
        if not several:
            brought[is_logic].setdefault(alias or parts[-1], set()).add((parts[:-1], parts[-1]))
    return brought[True], brought[False]
