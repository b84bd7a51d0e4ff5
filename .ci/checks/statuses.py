"""The table of statuses at the head of docs/COMMANDS.md, which is made of the lists of its sections: of each status and what it says the
commands that have it, of several sentences with the first. What is `as of` another command's counts for that one's too; of status 0 each section has its own words.
"""
import re

SECTION = re.compile(r'^## (\w+)$', re.M)
LIST = re.compile(r'^### Exit status\n\n((?:- .*\n)+)', re.M)
ITEM = re.compile(r'- ((?:`\d+`(?:, | to )?)+): (?:as of `(\w+)`)?(.*)')


def numbers(text):
    """The statuses that an item is of: some, or from one to another."""
    found = [int(number) for number in re.findall(r'\d+', text)]
    return list(range(found[0], found[-1] + 1)) if ' to ' in text else found


def rows(page):
    """By status and words the commands, in the order of the page."""
    found, also = {}, []
    parts = SECTION.split(page)
    for name, section in zip(parts[1::2], parts[2::2]):
        listed = LIST.search(section)
        for item in listed[1].splitlines() if listed else ():
            which, other, said = ITEM.fullmatch(item).groups()
            for number in numbers(which):
                if other:
                    also.append((number, other, name))
                elif number:
                    found.setdefault((number, said.strip().split('. ')[0].rstrip('.')), []).append(name)
    for number, other, name in also:
        for (status, _), names in found.items():
            if status == number and other in names:
                names.insert(names.index(other) + 1, name)
    return found


def made(page):
    lines = [f'| {number} | {", ".join(f"`{name}`" for name in names)} | {said} |' for (number, said), names in sorted(rows(page).items(), key=lambda row: row[0][0])]
    return '\n'.join(['| status | of | when |', '|---|---|---|', '| 0 | all | all was done: each section says what was written |', *lines]) + '\n'
