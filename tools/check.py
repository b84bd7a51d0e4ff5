#!/usr/bin/env python3
"""Plays the scenarios of a folder, and compares with what they expect.

For each NAME.toml of FOLDER, or for a FILE, the report is compared with NAME.toml.stdout if that is there, and the status
with NAME.toml.status. It is also compared with each line of the scenario that begins with `# expect:`:

  "deliver 3",
  # expect: b rule3 handed/45        a record of the event before has these words behind its act, in this order
  # expect: total handed 2 kept 0    the last line of the report has each number right behind its word
  # expect: scenario seed: kind      the text is refused with this line, the whole of it
  # expect: nested: nodes            so is what a chain can't be played with
  # expect: wire full                the report ends with this line

Of several lines below one event each is met by a later record than the one before. A scenario with a line
`# chain: CHAIN` is played by `nested FILE CHAIN`, every other one by `lab FILE`. `--write` writes NAME.toml.stdout
if there is none. The last line is 'N passed, M failed', and the status 1 if one failed or none was played.
"""
import bisect
import difflib
import glob
import os
import re
import sys

sys.dont_write_bytecode = True

import fates
import chains
import command
import toml_places

EXPECT = re.compile(r'#[ \t]*expect:(.*)$', re.M)
STATUSES = {'wire': 8, 'scenario': 3, 'nested': 12}  # of what ends with a line of this word
DIFFERENCES_MAX = 20  # lines that are shown of one report


class Expectation:
    """The words of a comment, its line in the file, and the number of the event before it, -1 where there is none."""

    def __init__(self, words, line, event):
        self.words, self.line, self.event = words, line, event


def expectations(text):
    """The comments of a text that expect something; a text that is no TOML has them before any event."""
    try:
        events = toml_places.read(text).value.get('events')
        ends = [event.end for event in events.value] if events is not None and isinstance(events.value, list) else []
    except toml_places.NotToml:
        ends = []
    line, at = 1, 0
    for found in EXPECT.finditer(text):
        line, at = line + text.count('\n', at, found.start()), found.start()
        yield Expectation(found[1].split(), line, bisect.bisect_right(ends, found.start()) - 1)


def has_in_order(line, words):
    """Whether words stand in a line in this order, maybe with others between them."""
    rest = iter(line)
    return all(word in rest for word in words)


def counts_of(words):
    """The words of a line of totals, each with the number right behind it."""
    return re.sub(r' (?=[0-9])', '=', ' '.join(words)).split(' ')


def is_last(line, words):
    """Whether the last line has what is expected: of totals those that are named, and of another line all of it."""
    if words[0] == 'total':
        return set(counts_of(words)) <= set(counts_of(line.split()))
    return line.split() == words


def unmet(text, written):
    """What is wrong with the expectations of a text, beside what was written."""
    lines, found, after = written.splitlines(), [], {}
    for expected in expectations(text):
        said = ' '.join(expected.words)
        if not expected.words:
            found.append(f'{expected.line}: expects nothing')
        elif expected.words[0].rstrip(':') in ('total', *STATUSES):
            last = lines[-1] if lines else ''
            if not is_last(last, expected.words):
                found.append(f'{expected.line}: expected {said}, and the last line is: {last}')
        else:
            records = [(at, line.split()) for at, line in enumerate(lines) if line.split()[2:3] == [str(expected.event)]]
            met = [at for at, line in records if at > after.get(expected.event, -1) and has_in_order(line[4:], expected.words)]
            if met:
                after[expected.event] = met[0]
            else:
                there = '\n    '.join(command.red(lines[at], fates.is_drop(words[5])) for at, words in records) or 'none'
                found.append(f'{expected.line}: expected {said}, and the records of event {expected.event} are:\n    {there}')
    return found


def differences(path, written):
    """How a report differs from the one beside the scenario."""
    stored = command.read(path + '.stdout')
    lines = difflib.unified_diff(stored.splitlines(), written.splitlines(), path + '.stdout', 'as played', lineterm='')
    return ['\n'.join(list(lines)[:DIFFERENCES_MAX])] if stored != written else []


def wanted_status(path, text, has_report):
    if os.path.exists(path + '.status'):
        return int(command.read(path + '.status'))
    firsts = [] if has_report else [expected.words[0].rstrip(':') for expected in expectations(text) if expected.words]
    return next((status for word, status in STATUSES.items() if word in firsts), 0)


def check(program, path, is_written=False):
    """What is wrong with one scenario, or None where it expects nothing."""
    text, has_report = command.read(path), os.path.exists(path + '.stdout')
    status, written = command.play_file(program, path, chains.chain_of(text))
    if is_written and not has_report:
        command.write(path + '.stdout', written)
        command.show([f'{path}.stdout: written'])
        if status:
            command.write(path + '.status', f'{status}\n')
        return []
    if not has_report and not any(True for _ in expectations(text)):
        return None
    found = [f'{path}:{fault}' for fault in unmet(text, written)] + (differences(path, written) if has_report else [])
    wanted = wanted_status(path, text, has_report)
    return found + ([f'{path}: status {status}, wanted {wanted}'] if status != wanted else [])


def paths_of(words):
    for word in words:
        if os.path.isdir(word):
            yield from sorted(glob.glob(os.path.join(glob.escape(word), '*.toml')))
        else:
            yield word


def main():
    parser = command.with_program(command.words(__doc__))
    parser.add_argument('paths', metavar='FOLDER', nargs='+', help='a folder of scenarios, or one scenario')
    parser.add_argument('--write', action='store_true', help='write a report where there is none')
    options = parser.parse_args()
    command.tell_fates()
    counts = {True: 0, False: 0}
    for path in paths_of(options.paths):
        found = check(options.program, path, options.write)
        if found is None:
            command.show([f'{path}: expects nothing: no {os.path.basename(path)}.stdout, no line `# expect:`'])
            continue
        command.show(line for fault in found for line in fault.split('\n'))
        counts[not found] += 1
    print(f'{counts[True]} passed, {counts[False]} failed')
    return 0 if counts[True] and not counts[False] else command.FOUND


if __name__ == '__main__':
    command.run(main)
