"""What the tools of this folder share: where things lie, how the program is called, how a tool ends.

A tool ends with 0 where all is well, 1 where it found something, 2 where its words are wrong, 4 where a file can't be
read or written, 70 where the tool itself is at fault, and 125 where there is no program that may answer. A fault is one line
on standard error, never a traceback.
"""
import argparse
import os
import re
import shutil
import subprocess
import sys
import tempfile
import textwrap
from collections.abc import Callable, Iterable
from typing import Any, NoReturn
from xml.sax.saxutils import escape

import chains

TOP = os.path.dirname(os.path.dirname(os.path.abspath(__file__)))
PROGRAM = os.path.join(TOP, 'teredo')  # which says where the program has to be built first
PACKAGED, CHECKED_OUT = os.path.join(TOP, 'teredo_cli'), os.path.join(TOP, 'crates', 'teredo_cli', 'out', 'teredo_cli')
BUILT = PACKAGED if os.path.exists(PACKAGED) else CHECKED_OUT  # the built program itself, where there is one
FOUND, WRONG_WORDS, UNREADABLE, OUR_FAULT, NOT_BUILT = 1, 2, 4, 70, 125
REFUSED, NO_CHAIN = 3, 12  # statuses of the program: of a scenario, and of its chain
SECONDS_MAX = 60  # that a run of the built program may take
DIGITS_MAX = 19  # of a number
COLUMNS_MIN, COLUMNS = 40, 80  # of a terminal: as few are assumed, and as many where nobody knows
RED, PLAIN = '\x1b[31m', '\x1b[0m'
TELLS_FATES = False  # which a tool says that has colours
PAINTED = re.compile(r'(\x1b\[(?:31|0)m)')
GAP = re.compile(r'(?<=\S) {2,}(?=\S)')  # between what is to be typed and what it does


class Refusal(Exception):
    """A reason to end: what is said on standard error, and the status."""

    def __init__(self, text: str, status: int = FOUND) -> None:
        super().__init__(text)
        self.status = status

    def __reduce__(self) -> tuple[Any, ...]:
        return Refusal, (str(self), self.status)  # between processes


def name() -> str:
    """How the tool that runs was called: ./teredo says it, and else it is the script's name."""
    return os.environ.get('TEREDO_CALLED') or os.path.basename(sys.argv[0])


def columns() -> int:
    """How wide the terminal is."""
    return max(COLUMNS_MIN, shutil.get_terminal_size((COLUMNS, 24)).columns)


def shown(text: str) -> str:
    """A text in which nothing steers a terminal: a control character is written as in Python, a tab is a space."""
    text = text.replace('\t', ' ')
    return text if text.isprintable() else ''.join(char if char.isprintable() else escaped(char) for char in text)


def escaped(char: str) -> str:
    code = ord(char)
    return f'\\x{code:02x}' if code < 0x100 else f'\\u{code:04x}' if code < 0x10000 else f'\\U{code:08x}'


def xml(text: str) -> str:
    """A text as it may stand in a picture."""
    return escape(shown(text))


def is_coloured() -> bool:
    """Whether lines of a tool that tells of fates go to a terminal, and nobody asks for no colours."""
    return TELLS_FATES and sys.stdout.isatty() and not os.environ.get('NO_COLOR') and os.environ.get('TERM', 'dumb') != 'dumb'


def tell_fates() -> None:
    """Lets drops be red where somebody looks."""
    global TELLS_FATES
    TELLS_FATES = True


def red(text: str, is_drop: bool = True) -> str:
    """What tells of a drop, in red where there are colours."""
    return f'{RED}{text}{PLAIN}' if is_drop and is_coloured() else text


def show(lines: Iterable[str]) -> None:
    """Prints lines, with nothing in them that steers a terminal but the colours of `red`."""
    is_painted = is_coloured()
    for line in lines:
        print(''.join(part if PAINTED.fullmatch(part) else shown(part) for part in PAINTED.split(line)) if is_painted else shown(line))
    sys.stdout.flush()


def folded(line: str, width: int) -> list[str]:
    """A line of a table or a paragraph in lines of a width, the later ones below what is said."""
    if len(line) <= width:
        return [line]
    gap = GAP.search(line)
    hang = gap.end() if gap and gap.end() <= width * 2 // 3 else len(line) - len(line.lstrip()) + 4 * (line[:1] == ' ')
    if gap and gap.end() > width * 2 // 3:
        return [line[:gap.start()], *folded(' ' * hang + line[gap.end():], width)] if gap.start() <= width else textwrap.wrap(
            line, width, subsequent_indent=' ' * hang, break_long_words=False, break_on_hyphens=False)
    return textwrap.wrap(line, width, subsequent_indent=' ' * hang, break_long_words=False, break_on_hyphens=False)


def wrapped(doc: str, width: int) -> str:
    """A text in lines of a width: paragraphs are filled anew, and lines that are set in stay lines."""
    made = []
    for block in doc.strip('\n').split('\n\n'):
        lines = block.split('\n')
        set_in = [number for number, line in enumerate(lines) if line.startswith(' ')]
        said = lines[:set_in[0]] if set_in else lines
        made += ['', *(textwrap.wrap(' '.join(said), width, break_long_words=False, break_on_hyphens=False) if said else [])]
        made += [part for line in lines[len(said):] for part in folded(line, width)]
    return '\n'.join(made[1:])


class Help(argparse.RawDescriptionHelpFormatter):
    """The help of a tool, no wider than the terminal."""

    def __init__(self, prog: str) -> None:
        super().__init__(prog, width=columns())

    def _fill_text(self, text: str, width: int, indent: str) -> str:
        return wrapped(text, columns() - 1)


class Parser(argparse.ArgumentParser):
    def error(self, message: str) -> NoReturn:
        super().error(shown(message))


def words(doc: str | None) -> argparse.ArgumentParser:
    """A parser of a tool's words, which has its docstring for `--help`."""
    return Parser(prog=name(), description=doc, formatter_class=Help)


def with_program(parser: argparse.ArgumentParser) -> argparse.ArgumentParser:
    """The same parser, with the program as an option."""
    parser.add_argument('--program', metavar='PROGRAM', default=PROGRAM,
                        help='the built program; ./teredo where none is named')
    return parser


def with_chain(parser: argparse.ArgumentParser) -> argparse.ArgumentParser:
    """The same parser, with a chain of NATs as an option."""
    parser.add_argument('--chain', metavar='CHAIN',
                        help='play a scenario by `nested FILE CHAIN`; where none is named, with the chain that its line '
                             '`# chain: CHAIN` has, and by `lab` where it has no such line')
    return parser


def over_report(doc: str | None) -> argparse.ArgumentParser:
    """A parser of the words of a tool over a report or a scenario."""
    parser = with_chain(with_program(words(doc)))
    parser.add_argument('file', metavar='FILE', help='a report or a scenario')
    return parser


def number(text: str) -> int:
    """A whole number without sign, as words have it."""
    if not text.isascii() or not text.isdecimal() or len(text) > DIGITS_MAX:
        raise argparse.ArgumentTypeError(f'no whole number: {text[:DIGITS_MAX]}')
    return int(text)


def read(path: str) -> str:
    """The text of a file; `-` is standard input."""
    try:
        if path == '-':
            return sys.stdin.buffer.read().decode('utf-8')
        with open(path, 'rb') as file:
            return file.read().decode('utf-8')
    except OSError as fault:
        raise Refusal(f'{path}: {fault.strerror}', UNREADABLE) from None
    except UnicodeDecodeError as fault:
        raise Refusal(f'{path}: is no text in UTF-8, from byte {fault.start} on', FOUND) from None


def write(path: str, text: str) -> None:
    try:
        with open(path, 'w', encoding='utf-8') as file:
            file.write(text)
    except OSError as fault:
        raise Refusal(f'{path}: {fault.strerror}', UNREADABLE) from None


def built(program: str = PROGRAM, is_quiet: bool = False) -> str:
    """The built program itself, where none is named: in a package beside ./teredo, else where it was built. Who asks quietly
    says himself what it means that nothing is."""
    if program != PROGRAM:
        return os.path.abspath(program)
    call(PROGRAM, 'show', '60', is_quiet=is_quiet)
    return BUILT


def call(program: str, *shape: str, once: bool = False, is_quiet: bool = False) -> tuple[int, bytes]:
    """The status of the program with these words, and the bytes that it wrote.

    A tool that asks `once` may get an unproved answer where nothing is built, which then takes a minute or two."""
    asked = {**os.environ, 'TEREDO_QUIET': '1'} | ({} if once else {'TEREDO_PROVED': '1'})
    try:
        is_built = program != PROGRAM  # else ./teredo may have something to say, which is shown
        played = subprocess.run([program, *shape], stdin=subprocess.DEVNULL, stdout=subprocess.PIPE,
                                stderr=subprocess.DEVNULL if is_built or is_quiet else None, env=asked,
                                timeout=SECONDS_MAX if is_built else None)
    except OSError as fault:
        raise Refusal(f'{program}: {fault.strerror}', UNREADABLE) from None
    except ValueError:  # a zero byte, or half of a character
        raise Refusal('a word that no program can be given', WRONG_WORDS) from None
    except subprocess.TimeoutExpired:
        raise Refusal(f'{" ".join(shape)}: no end within {SECONDS_MAX} s') from None
    if played.returncode == NOT_BUILT:
        raise Refusal('there is no program to play with', NOT_BUILT)
    return played.returncode, played.stdout


def said(status: int, written: str) -> str:
    """What is said of a scenario that isn't played: the program's own line, and who knows more."""
    line = written.strip().splitlines()[-1:] or [f'status {status}']
    return line[0] + ('; lint says where' if status in (REFUSED, NO_CHAIN) else '')


def play_file(program: str, path: str, chain: str | None = None, once: bool = False) -> tuple[int, str]:
    """The status of `lab PATH`, or of `nested PATH CHAIN`, and what it wrote."""
    status, written = call(program, *(['lab', path] if chain is None else ['nested', path, chain]), once=once)
    return status, written.decode('utf-8', 'replace')


def play(program: str, text: str, chain: str | None = None, once: bool = False) -> tuple[int, str]:
    """The same of a scenario's text; where no chain is named, with the one that it says."""
    with tempfile.NamedTemporaryFile('w', suffix='.toml', encoding='utf-8') as file:
        file.write(text)
        file.flush()
        return play_file(program, file.name, chains.chain_of(text) if chain is None else chain, once)


def tell(text: object) -> None:
    """A line on standard error, behind the tool's name."""
    print(f'{name()}: {shown(str(text))}', file=sys.stderr, flush=True)


def run(main: Callable[[], int | None]) -> NoReturn:
    """Runs a tool and ends with its status."""
    try:
        status = main()
        sys.stdout.flush()
    except Refusal as fault:
        tell(fault)
        status = fault.status
    except BrokenPipeError:  # who reads has enough
        os.dup2(os.open(os.devnull, os.O_WRONLY), sys.stdout.fileno())
        status = 0
    except KeyboardInterrupt:
        print(file=sys.stderr)
        status = 130
    except (RecursionError, MemoryError):
        tell('what it was given goes deeper, or is larger, than this tool can follow')
        status = FOUND
    except Exception as fault:  # ours; who mends it sets TEREDO_FAULTS, and sees where it is
        if os.environ.get('TEREDO_FAULTS'):
            raise
        tell(f'a fault of this tool, {type(fault).__name__}: {str(fault)[:200]}')
        status = OUR_FAULT
    sys.exit(status)
