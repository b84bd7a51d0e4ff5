"""Completion by Tab at a prompt, where Python has readline."""
import contextlib
import glob

readline = None
with contextlib.suppress(ImportError):
    import readline


def matches(line, words, places):
    """What the last word of a line may become. `words` may stand first; `places` has of a first word what may stand at each place
    behind it, None where the name of a file does."""
    *before, here = line.split(' ')
    if not before:
        return sorted(word + ' ' for word in words if word.startswith(here))
    behind = places.get(before[0], [])
    at = len(before) - 1
    if at >= len(behind):
        return []
    known = glob.glob(glob.escape(here) + '*') if behind[at] is None else behind[at]
    return [word + ' ' for word in known if word.startswith(here)]


def begin(candidates):
    """Lets Tab complete from now on; `candidates` says what may stand where, at each time."""
    if readline is None:
        return
    found = []

    def complete(_, number):
        if number == 0:
            with contextlib.suppress(Exception):  # nothing is completed, and the line stays
                found[:] = matches(readline.get_line_buffer()[:readline.get_endidx()].lstrip(), *candidates())
        return found[number] if number < len(found) else None
    readline.set_completer(complete)
    readline.set_completer_delims(' ')
    readline.parse_and_bind('bind ^I rl_complete' if 'libedit' in (readline.__doc__ or '') else 'tab: complete')
