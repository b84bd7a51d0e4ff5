"""What a package says was proved: the file PROVED. It is told what a gate said, and refuses what can't be of this commit and program."""
import hashlib
import os
import re
import shutil
import subprocess

import command

KIT = re.compile(r'`(\S+ logic [0-9a-f]+)`')
PASSED = re.compile(r'[1-9]\d* passed, 0 failed(?:, \d+ skipped)?(?: \([^()]*\))?')  # the last line of a gate that passed
ELF = re.compile(rb'\x7fELF\x02\x01\x01.{9}[\x02\x03]\x00\x3e\x00', re.S)  # of 64 bits, the low byte first, a program, for x86-64
HOW = """A program of `./teredo build` is built after `rt all check`, which proves each crate and takes what was proved before for proved
(its verdict says incremental=trusted). The gate, `rt ci`, begins with nothing that a check has kept.

What is proved of the program, and on which premises: docs/CLAIMS.md beside it, each claim with its clause.
The tools, in Python and bash, are tested. No licence is given yet: that is the owner's to name.
"""


def kit():
    """The kit at hand, and the one that README.md names where it is another one, or there is none."""
    named = KIT.search(command.read(os.path.join(command.TOP, 'README.md')))[1]
    if not shutil.which('rt'):
        return named
    said = subprocess.run(['rt', 'version'], stdout=subprocess.PIPE).stdout.decode().strip()
    return said if said == named else f'{said}, where README.md names {named}'


def sum_of(program):
    return hashlib.sha256(program).hexdigest()


def refuse_what_is_false(origin, options, program):
    """Ends where the program, or what is said of a gate, can't be right."""
    if not ELF.match(program):
        raise command.Refusal(f'{options.program}: is no ELF program for x86-64')
    if options.gate is None and (options.commit or options.sum):
        raise command.Refusal('--commit and --sum say what a gate ran on, and there is no --gate', command.WRONG_WORDS)
    if options.gate is not None and not PASSED.fullmatch(options.gate):
        raise command.Refusal(f"--gate wants the last line of a gate that passed, as '12 passed, 0 failed': {options.gate!r} is none")
    if options.commit and (origin.commit != options.commit or origin.is_changed):
        raise command.Refusal(f'the gate ran on {options.commit}, and this is {origin.commit}{", with changes" if origin.is_changed else ""}')
    if options.sum and options.sum != sum_of(program):
        raise command.Refusal(f'the gate left a program with the sum {options.sum}, and this one has {sum_of(program)}')


def gate_told(options):
    """What is known of the gate, and what isn't."""
    if options.gate is None:
        return 'No line of the gate was given: nothing here says that it passed.'
    said = (('the commit that it ran on', options.commit), ('the sum of the program that it left', options.sum))
    unsaid = [what for what, is_said in said if not is_said]
    rest = f'Who packed this did not say {" nor ".join(unsaid)}.' if unsaid else 'It ran on this commit, and left this program.'
    return f'The gate ended with: {options.gate}\n{rest}'


def page(version, origin, options, program):
    """What was proved, as far as this repository and whoever packs it say so."""
    changed = ', and changes that no commit has' if origin.is_changed else ''
    of_it = 'named by who packed this: that it is of this commit is his word' if options.is_named else 'of this checkout, and as young as its sources'
    return (f'teredo {version}\ncommit {origin.commit}{changed}, of {origin.date}\nkit {kit()}\n'
            f'program SHA-256 {sum_of(program)}\nprogram {of_it}\n\n{gate_told(options)}\n{HOW}')
