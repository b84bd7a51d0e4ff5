"""Runs of programs with their wall time, processor time and memory, in turns with each other."""
import os
import shlex
import shutil
import subprocess
import time
from dataclasses import dataclass, field

import command

MEMORY_RUNS = 3

@dataclass
class Measured:
    """What one program took for one thing, a number for each of its runs, and the file that has what it wrote."""
    output: str
    walls: list = field(default_factory=list)
    processors: list = field(default_factory=list)
    memory: int = 0


def program_of(text):
    """A program with the words to begin with, as a text names them."""
    words = shlex.split(text)
    path = shutil.which(words[0]) if words else None
    if path is None:
        raise command.Refusal(f'{text}: there is no such program; ./teredo build builds the one of this repository',
                              command.UNREADABLE)
    return [os.path.abspath(path), *words[1:]]


def put(folder, name, content):
    """The path of a file that has this text, or these bytes."""
    path = os.path.join(folder, name)
    with open(path, 'wb') as file:
        file.write(content.encode() if isinstance(content, str) else content)
    return path


def output_of(measured):
    with open(measured.output, 'rb') as file:
        return file.read()


def start(words, output):
    try:
        return subprocess.Popen(words, stdin=subprocess.DEVNULL, stdout=output, stderr=subprocess.DEVNULL)
    except OSError as fault:
        raise command.Refusal(f'{words[0]}: {fault.strerror}', command.UNREADABLE) from None


def run(words, status, measured):
    """Runs a program to its end, with this status, and adds its times."""
    with open(measured.output, 'wb') as output:
        begun = time.perf_counter()
        running = start(words, output)
        _, ended, usage = os.wait4(running.pid, 0)
        measured.walls.append(time.perf_counter() - begun)
    measured.processors.append(usage.ru_utime + usage.ru_stime)
    running.returncode = os.waitstatus_to_exitcode(ended)
    if running.returncode != status:
        raise command.Refusal(f'{shlex.join(words)}: status {running.returncode}, and {status} is due. Where this program '
                              'can\'t do that, name the other parts with --only')


def memory_of(words, output):
    """The most memory of some runs in bytes, asked again and again until they end; 0 where the system doesn't say.

    The count of `wait4` begins with the memory of this process, which may be more.
    """
    most = 0
    for _ in range(MEMORY_RUNS):
        with open(output, 'wb') as file:
            running = start(words, file)
            while running.poll() is None:
                most = max(most, high_water(running.pid))
    return most


def high_water(process):
    try:
        with open(f'/proc/{process}/status', encoding='ascii') as file:
            return next((int(line.split()[1]) * 1024 for line in file if line.startswith('VmHWM:')), 0)
    except OSError:
        return 0


def nothing_yet(programs, folder):
    """What each program took, before any turn."""
    return [Measured(os.path.join(folder, f'output.{number}')) for number in range(len(programs))]


def take_turns(programs, words, status, measured):
    for program, found in zip(programs, measured):
        run(program + words, status, found)


def in_turns(programs, words, status, rounds, folder):
    """What each program took for these words in so many rounds, and the most memory of each."""
    measured = nothing_yet(programs, folder)
    for _ in range(rounds):
        take_turns(programs, words, status, measured)
    for program, found in zip(programs, measured):
        found.memory = memory_of(program + words, found.output)
    return measured
