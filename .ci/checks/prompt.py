"""The tool play: the last events of each example, taken back and typed again, give its report. A line of TYPED_LINES is answered
as it should be, and `all` says where it stops. At a terminal Tab completes, and Ctrl-C drops the line; `save` asks.
"""
import os
import pty
import select
import sys
import tempfile
import time

import command
import completion
import play
import prompted
from stored import TOP, names, path_of
from toml_places import scenario_events

TYPED = 4  # events of each example that are typed again
# What is typed at `two_port_restricted`, and how the last line of the answer begins.
TYPED_LINES = (('foo', '  wanted: an event begins with one of advance, '), ('deliver #0', '  wanted: N: the event is deliver N; '),
               ('host a b 0', '  wanted: HEX: '), ('save', '  save FILE '), ('all', 'nothing is left'),
               ('why 4', 'host a b 68656c6c6f: arrived at b'), ('why 5', 'event 5 handed in no packet'),
               ('why 99', 'there is no event 99'), ('why x', 'there is no event x'), ('help flow', '  flow [N [M]]'),
               ('? until', '  until FATE'), ('help deliver', '  deliver N: '), ('help nonsense', 'there is no word nonsense'),
               ('flow 38', '            b -----> a  #25 packet: rule1'), ('flow 39 41', '            b           sent'), ('flow x', '  flow [N [M]]'),
               ('trace 4', '  look next: handed/'), ('trace 10', 'done, of event: '), ('help exit', '  quit, exit'), ('exit now', '  quit, exit'))
# What may be completed of a line, and to what, by a scenario of a client and its NAT.
COMPLETED = (('sett', ['settle ']), ('he', ['help ']), ('host ', ['a ']), ('host a ', ['a ']), ('restart n', ['n1 ']), ('deliver ', ['0 ', '1 ']),
             ('forget n1 ', ['a ']), ('until qualified_c', ['qualified_cone ']), ('nonsense ', []), ('next ', []), ('host a a 00 ', []))
# Typed at a terminal, and what then stands there.
AT_TERMINAL = ((b'dep\x03', b'> '), (b'sett\t\n', b'settle - done'), (b'help sa\x03', b'> '), (b'restart n\t\n', b'restart n1 done'), (b'exit\n', b''))


def check_play(program):
    found = []
    for name in names():
        session = play.Session(program, path_of(name))
        typed = session.events()[-TYPED:]
        for _ in typed:
            session.undo()
        for event in typed:
            play.answer(session, event)
        events = scenario_events(name, session.whole())
        if session.written != command.read(path_of(name) + '.stdout') or events[-len(typed):] != typed:
            found.append(f'{name}: typing {typed} gives another report')
    session = play.Session(program, path_of('two_port_restricted'))
    for line, begun in TYPED_LINES:
        lines = [said for said in play.answer(session, line) if not said.startswith('(')]  # without what it says of proof
        if not lines[-1].startswith(begun):
            found.append(f'{line}: {lines}')
    return found + faults_of_all(program)


def faults_of_all(program):
    """Two deliveries of an example, played by an `all` that may do one, and then by one that may do more."""
    session, most = play.Session(program, path_of('cone_client')), prompted.NEXT_MAX
    session.undo()
    session.undo()
    prompted.NEXT_MAX = 1
    first = play.answer(session, 'all')
    prompted.NEXT_MAX = most
    rest = play.answer(session, 'all')
    is_right = 'more may be left' in first[-1] and len(rest) == 1 and session.written == command.read(path_of('cone_client') + '.stdout')
    return [] if is_right else [f'all: {first}, and then {rest}']


def check_play_completion(program):
    session = play.Session(program, path_of('cone_client'))
    found = [f'{line!r}: {completion.matches(line, *play.candidates(session))}, not {due}' for line, due in COMPLETED
             if completion.matches(line, *play.candidates(session)) != due]
    with tempfile.TemporaryDirectory() as folder:
        path = os.path.join(folder, 'own.toml')
        said = [play.answer(session, f'save {path}')[0] for _ in range(4)]
        if [line.startswith('saved') for line in said] != [True, False, True, False] or command.read(path) != session.whole():
            found.append(f'save: {said}')
    return found


def check_terminal(program):
    """What somebody types: a key at a time, as far as that matters."""
    child, terminal = pty.fork()
    if child == 0:
        os.execv(sys.executable, [sys.executable, os.path.join(TOP, 'tools', 'play.py'), '--program', program, path_of('cone_client')])
    found = [] if b'> ' in came(terminal, b'> ') else ['there is no prompt']
    for typed, due in AT_TERMINAL:
        os.write(terminal, typed)
        said = came(terminal, due)
        if due not in said or b'Traceback' in said:
            found.append(f'{typed}: {said}, and not {due}')
    status = os.waitstatus_to_exitcode(os.waitpid(child, 0)[1])
    return found + ([f'it ends with {status}'] if status else [])


def came(terminal, due, seconds=10):
    """What comes at a terminal until something is there, and nothing more comes."""
    said, until = b'', time.monotonic() + seconds
    while time.monotonic() < until:
        if select.select([terminal], [], [], 0.3)[0]:
            try:
                said += os.read(terminal, 65536)
            except OSError:  # it has ended
                break
        elif due in said:
            break
    return said
