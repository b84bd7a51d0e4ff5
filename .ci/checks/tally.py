"""What the checks share that try the program: which one they try, how many of them passed, and what was skipped."""
import os
import signal
import sys

# A run in the background may have been given an interrupt that is ignored, which a program that is tried would inherit.
signal.signal(signal.SIGINT, signal.default_int_handler)

TOP = os.path.dirname(os.path.dirname(os.path.dirname(os.path.abspath(__file__))))
PROGRAM = os.path.join(TOP, 'crates', 'teredo_cli', 'out', 'teredo_cli')
NAME = os.path.basename(sys.argv[0])
# Of the environment: a file that gets a line for each skip, as .ci/run counts them; and with 1 a skip fails.
SKIPS, WHOLE = 'TEREDO_SKIPS', 'TEREDO_WHOLE'
skipped = []


def program_of(doc, words):
    """The program that is named, or the built one. It ends with the page where that is asked for, and where there is no program."""
    if words[:1] in (['-h'], ['--help']):
        print(doc.strip())
        sys.exit(0)
    program = os.path.realpath(words[0]) if words else PROGRAM
    if len(words) > 1 or not os.access(program, os.X_OK):
        print(f'{os.path.basename(sys.argv[0])}: {program} is no program', file=sys.stderr)
        sys.exit(1)
    return program


def skip(what, why):
    """Says once that something can't be tried here, where a tool, a right or a folder is missing, and counts it."""
    if what not in skipped:
        print(f'{NAME}: {what} is SKIPPED: {why}', flush=True)
        skipped.append(what)
        if os.environ.get(SKIPS):
            with open(os.environ[SKIPS], 'a', encoding='utf-8') as file:
                file.write(f'{NAME}: {what}: {why}\n')


def end(passed, failed):
    """Prints the last line; the status. A whole run is none where something was skipped."""
    print(f'{passed} passed, {failed} failed, {len(skipped)} skipped')
    return 1 if failed or (skipped and os.environ.get(WHOLE) == '1') else 0


class Tally:
    """How many checks passed, and how many failed."""

    def __init__(self):
        self.passed, self.failed = 0, 0

    def add(self, check, found, said=()):
        """Counts a check that found this, and prints it, with what it said besides."""
        for text in [*said, *found]:
            print(f'{NAME}: {check}: {text}')
        self.passed += not found
        self.failed += bool(found)

    def end(self):
        return end(self.passed, self.failed)
