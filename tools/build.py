#!/usr/bin/env python3
"""Proves and builds the program, once: each crate below it, as many at a time as there are processors, and then itself.

That takes less than an hour on four processors if nothing is kept. It names each crate as it is done, how many are left, and the
time so far; and it says when all are proved and only the program is left to make. Ctrl-C ends it, and what was proved is kept: the
next build begins there. What `rt` says goes to a file, which is named if a crate fails.

It ends with status 0 if the program is built, and with 125 if it isn't.
"""
import os
import re
import shutil
import signal
import subprocess
import sys
import tempfile
import time

sys.dont_write_bytecode = True

import command

TOP_CRATE = 'teredo_cli'
STORED_RUN = ('lab', 'data/solicitation.toml')  # the crate's stored run: status 0 says that the program ran
TAIL = 40  # lines of a failed proof that are shown
END_S = 5  # that `rt` has to end in order
FOLDER = os.path.join(command.TOP, 'crates', TOP_CRATE)
PROGRAM = os.path.join(FOLDER, 'out', TOP_CRATE)
STAMP = os.path.join(FOLDER, 'out', 'teredo.built')


def say(text):
    print(f'teredo: {text}', file=sys.stderr, flush=True)


def needs(text):
    """Each crate of crates.txt that the program is made of, itself included."""
    below = {}
    for line in text.splitlines():
        found = re.match(r'(\w+)[^:#]*:([^#]*)', line)
        if found:
            below[found[1]] = found[2].split()
    wanted, left = set(), [TOP_CRATE]
    while left:
        name = left.pop()
        if name not in wanted:
            wanted.add(name)
            left += [other for other in below[name] if other in below]
    return wanted


def spent(since):
    seconds = int(time.monotonic() - since)
    return f'{seconds // 60} min {seconds % 60} s' if seconds >= 60 else f'{seconds} s'


def end(process):
    """Ends `rt`, with all that it started."""
    for how in (signal.SIGINT, signal.SIGTERM, signal.SIGKILL):
        try:
            os.killpg(process.pid, how)
            process.wait(END_S)
        except ProcessLookupError:
            return
        except subprocess.TimeoutExpired:
            pass


class Build:
    """What `rt` said of each crate. One `rt` proves them all: two of them in one copy of the repository wait for one another."""

    def __init__(self, log):
        self.crates = needs(command.read(os.path.join(command.TOP, 'crates.txt')))
        self.log, self.begun = log, time.monotonic()
        self.said, self.failed = {}, []

    def hear(self, line):
        """A crate's name stands above what was said of it, once it is done; at the end a line for each says how it ended."""
        name = line[3:].strip() if line.startswith('== ') else None
        if name:
            self.said[name] = []
        elif self.said:
            list(self.said.values())[-1].append(line)
        if name in self.crates:
            left = len(self.crates.difference(self.said))
            say(f'{name} is done; {left} of {len(self.crates)} are left, {spent(self.begun)} so far')
        failed = re.match(r'(\w+): failed ', line)
        if failed and 'summary' in self.said:
            self.failed.append(failed[1])

    def rt(self, *words):
        process = subprocess.Popen(['rt', *words], cwd=FOLDER, stdin=subprocess.DEVNULL, stdout=subprocess.PIPE, stderr=subprocess.STDOUT,
                                   text=True, errors='replace', start_new_session=True)
        try:
            for line in process.stdout:
                self.log.write(line)
                self.log.flush()
                self.hear(line)
            if process.wait():
                self.refuse()
        finally:
            end(process)

    def refuse(self):
        for name in self.failed[:1]:
            print(''.join(self.said[name][-TAIL:]), end='', file=sys.stderr)
        raise command.Refusal(f'{" and ".join(self.failed) or TOP_CRATE} could not be built; all that rt said is in {self.log.name}',
                              command.NOT_BUILT)


def interrupted(number, frame):
    raise KeyboardInterrupt


def build(jobs):
    for number in (signal.SIGTERM, signal.SIGHUP):
        signal.signal(number, interrupted)
    folder = tempfile.mkdtemp(prefix='teredo-build-')
    begun = os.path.join(folder, 'begun')
    command.write(begun, '')
    with open(os.path.join(folder, 'rt.log'), 'w', encoding='utf-8') as log:
        made = Build(log)
        try:
            say(f'proving and building {len(made.crates)} crates, {jobs} at a time; less than an hour on four processors, where nothing is kept')
            made.rt('all', 'check', '--jobs', str(jobs))
            say(f'all {len(made.crates)} crates are proved; the program is being made, {spent(made.begun)} so far')
            made.rt('run', '--', *STORED_RUN)
        except KeyboardInterrupt:
            shutil.rmtree(folder, ignore_errors=True)
            raise command.Refusal(f'interrupted after {spent(made.begun)}; what was proved so far is kept', command.NOT_BUILT) from None
    if not os.access(PROGRAM, os.X_OK):
        raise command.Refusal(f'rt built no program; all that it said is in {folder}', command.NOT_BUILT)
    shutil.move(begun, STAMP)  # as old as the beginning
    shutil.rmtree(folder, ignore_errors=True)
    say(f'built in {spent(made.begun)}: {PROGRAM}')
    return 0


def main():
    parser = command.words(__doc__)
    parser.add_argument('--jobs', metavar='N', type=int, default=len(os.sched_getaffinity(0)),
                        help='crates at a time; as many as there are processors, where none is said')
    options = parser.parse_args()
    if options.jobs < 1:
        raise command.Refusal('--jobs wants 1 or more', command.WRONG_WORDS)
    if not shutil.which('rt'):
        raise command.Refusal("no command rt on the PATH: put the bin folder of Rattle's kit there", command.NOT_BUILT)
    return build(options.jobs)


if __name__ == '__main__':
    command.run(main)
