"""docs/CLAIMS.md, made from the sentences beside the clauses."""
import collections
import glob
import os
import re

import regions
from sentences import Sentences, name_of

PAGE, HEAD = 'docs/CLAIMS.md', 'docs/parts/claims.md'
MADE = '<!-- Made by `.ci/claims --write` from the sentences in the code, and from {head}. Change those, and make the page anew. -->'
BREAKS = re.compile(r'^# breaks: (.*?)(?:, "(.*)")?$', re.M)


def edits_of(top, crate):
    """By edit what it says that it breaks: (the place's name, the beginning of the sentence or nothing)."""
    found = {}
    for path in sorted(glob.glob(f'{top}/crates/{crate}/must-fail/*.edit')):
        with open(path, encoding='utf-8') as file:
            found[os.path.basename(path)[:-len('.edit')]] = BREAKS.findall(file.read())
    return found


def refused(top, crate, sentences, faults):
    """Of each sentence, by its number, the edits that it refuses."""
    found = collections.defaultdict(list)
    for edit, told in edits_of(top, crate).items():
        if not told:
            faults.append(f'crates/{crate}/must-fail/{edit}.edit: has no line `# breaks: CALL: CLAUSE`')
        for name, begin in told:
            meant = [number for number, each in enumerate(sentences) if name_of(each.home).replace('`', '') == name and each.text.startswith(begin)]
            if len(meant) != 1:
                faults.append(f'crates/{crate}/must-fail/{edit}.edit: {len(meant)} sentences are meant by: {name}' + (f', "{begin}"' if begin else ''))
            else:
                found[meant[0]].append(edit)
    return found


def carriers(places):
    """The calls and clauses of a sentence, in the form in which .ci/claims reads them."""
    by_head = {}
    for place in places:
        if place.trait and place.trait == place.label:
            head = f'`{place.trait}` of `{place.owner}`'
        else:
            head = name_of(place._replace(label=''))
        labels = by_head.setdefault(head, [])
        if place.label and place.label != place.trait and place.label not in labels:
            labels.append(place.label)
    grouped = collections.OrderedDict()
    for head, labels in by_head.items():
        grouped.setdefault(tuple(labels), []).append(head)
    return '; '.join(', '.join(heads) + (': ' + ', '.join(f'`{label}`' for label in labels) if labels else '') for labels, heads in grouped.items())


def files_of(places, crate):
    found = list(dict.fromkeys(place.path for place in places))
    return ', '.join(f'[{path.split("/", 3)[3]}](../{path})' for path in found)


def entry(sentence, edits, crate):
    parts = [f'{carriers(sentence.places)}.', f'In {files_of(sentence.places, crate)}.']
    if 'Needs' in sentence.parts:
        parts.append(f'Needs: {sentence.parts["Needs"]}')
    if edits:
        parts.append('Refuses ' + ', '.join(f'`{edit}`' for edit in edits) + '.')
    if 'Leaves open' in sentence.parts:
        parts.append(f'Leaves open: {sentence.parts["Leaves open"]}')
    return f'- {sentence.text}\n  {" ".join(parts)}\n'


def made(top, files, public):
    """The page, and what is wrong with what it is made from."""
    told = Sentences(files, public)
    faults = list(told.faults)
    with open(f'{top}/{HEAD}', encoding='utf-8') as file:
        page = [file.read().replace('\n', f'\n\n{MADE.format(head=HEAD)}\n', 1)]
    for crate in files.crates:
        sentences, beside = told.by_crate[crate], told.beside(crate)
        edits = refused(top, crate, sentences, faults)
        if sentences or beside:
            entries = ''.join(entry(each, edits[number], crate) for number, each in enumerate(sentences))
            page.append(f'## `{crate}`\n\n{told.title(crate)}\n\n{entries}' + ''.join(f'\n{linked(each)}\n' for each in beside))
    return regions.with_contents('\n'.join(part.rstrip('\n') + '\n' for part in page)), faults


def linked(text):
    """Pages of docs/ as links."""
    return re.sub(r'`docs/(\w+\.md)`', r'[\1](\1)', text)
