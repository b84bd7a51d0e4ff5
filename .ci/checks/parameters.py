"""How many parameters a lemma has, those of the sections around it counted: what a reader holds in mind, and a caller writes.

A section `module _ (..) where` hides its parameters from the line of the lemma, and gives each of them to whoever calls it. Past
PARAMETERS_MAX a record stands for those that go together, with `open` in the section. What a later parameter tells stands in
braces, and isn't counted.
"""
import re

PARAMETERS_MAX = 14
SECTION = re.compile(r'^( *)module _ ')
LEMMA = re.compile(r'^( *)(?:pub )?([^\s:{}()]+) : (.*)$')
GROUP = re.compile(r'^[({]\s*[^\s:(){}]+(\s+[^\s:(){}]+)*\s*:\s')
OPENS, CLOSES = '([{', ')]}'


def split(text, mark):
    """The text, cut at each mark that stands in no brackets."""
    parts, depth = [''], 0
    for letter in text:
        depth += (letter in OPENS) - (letter in CLOSES)
        if letter == mark and depth == 0:
            parts.append('')
        else:
            parts[-1] += letter
    return [part.strip() for part in parts]


def groups(text):
    """The groups in brackets that stand in a row at its front."""
    start, depth = 0, 0
    for at, letter in enumerate(text):
        if depth == 0 and not letter.isspace() and letter not in OPENS:
            return
        start = at if depth == 0 and letter in OPENS else start
        depth += (letter in OPENS) - (letter in CLOSES)
        if depth == 0 and letter in CLOSES:
            yield text[start:at + 1]


def named(part):
    """How many parameters a part before an arrow has."""
    if not GROUP.match(part):
        return 1
    return sum(len(group[1:].partition(' : ')[0].split()) for group in groups(part) if group.startswith('('))


def until(lines, at, is_end):
    """The lines from this one to the first that is an end, as one."""
    text = lines[at].strip()
    while not is_end(text, lines[at + 1] if at + 1 < len(lines) else ''):
        at += 1
        text += ' ' + lines[at].strip()
    return text, at


def lemmas(text):
    """Each lemma of a file, with how many parameters it has."""
    return ((name, sum(map(named, parts)) + sum(sum(map(named, section)) for section in sections)) for name, parts, sections in stated(text))


def lemmas_said(text):
    """The parameters of each lemma of a file, and of each section around one."""
    for _, parts, sections in stated(text):
        yield parts
        yield from sections


def stated(text):
    """Each lemma of a file: its name, its parameters, and those of the sections around it."""
    lines, around, at = text.split('\n'), [], 0
    while at < len(lines):
        line = lines[at]
        indent = len(line) - len(line.lstrip())
        if line.strip() and not line.lstrip().startswith(('--', 'use ')):
            while around and indent <= around[-1][0]:
                around.pop()
            lemma = LEMMA.match(line)
            if SECTION.match(line):
                head, at = until(lines, at, lambda text, _: text.endswith('where'))
                around.append((indent, [head.removeprefix('module _ ').removesuffix('where').strip()]))
            elif lemma and indent == (around[-1][0] + 2 if around else 0):
                said, at = until(lines, at, lambda _, after: not is_more(after, indent))
                yield lemma[2], split(said.partition(' : ')[2], '→')[:-1], [section for _, section in around]
        at += 1


def is_more(line, indent):
    """Whether a line goes on with a lemma's statement."""
    return len(line) - len(line.lstrip()) > indent and not re.match(r'\s*(where|in)\b', line)


def faults(paths, read):
    """Each lemma that has too many."""
    for path in paths:
        if re.fullmatch(r'crates/\w+/proofs/(?:[a-z_]+/)?[A-Z]\w*\.antt', path):
            for name, count in lemmas(read(path)):
                if count > PARAMETERS_MAX:
                    yield f'{path}: `{name}` has {count} parameters with those of its sections, and {PARAMETERS_MAX} are the most'
