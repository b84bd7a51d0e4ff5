"""The examples as they are stored, and how a script is called."""
import glob
import importlib.util
import os
import re
import subprocess
import sys
import tempfile

import command
import lint
import report

TOP = os.path.dirname(os.path.dirname(os.path.dirname(os.path.abspath(__file__))))
FOLDERS = [os.path.join(TOP, 'examples', name) for name in ('scenarios', 'chains')]
SVG = '{http://www.w3.org/2000/svg}'


def run(script, *words):
    """The status of a script as it is called, and what it wrote."""
    done = subprocess.run([sys.executable, os.path.join(TOP, script), *words], stdin=subprocess.DEVNULL,
                          stdout=subprocess.PIPE, stderr=subprocess.PIPE, timeout=60)
    return done.returncode, done.stdout.decode(), done.stderr.decode()


def paths():
    """Each example that is played, and not refused, by its name."""
    found = [path for folder in FOLDERS for path in sorted(glob.glob(f'{folder}/*.toml'))]
    return {os.path.basename(path)[:-5]: path for path in found if not os.path.exists(path + '.status')}


def names():
    return list(paths())


def path_of(name):
    return paths()[name]


def report_of(name):
    return report.Report(command.read(path_of(name) + '.stdout'))


def example():
    """The scenario at the top of docs/SCENARIOS.md."""
    page = command.read(os.path.join(TOP, 'docs', 'SCENARIOS.md'))
    return re.search(r'## Example\n\n```toml\n(.*?)```', page, re.S)[1]


def refusals():
    """Each row of tests/stored/refusals.txt: the text that is put into the example, the scenario, and the line."""
    rows = command.read(os.path.join(TOP, 'tests', 'stored', 'refusals.txt')).split('\n\n', 1)[1].splitlines()
    for before, after, said in (re.fullmatch(r'(.*?) {2,}(.*?) {2,}(scenario.*)', row).groups() for row in rows):
        yield after, example().replace(before, after, 1), said


def linted(program, text, chain=None):
    """The lines of a scenario's text, without the name of its file."""
    with tempfile.NamedTemporaryFile('w', suffix='.toml', encoding='utf-8') as file:
        file.write(text)
        file.flush()
        return [line.replace(file.name, '') for line in lint.lint(program, file.name, chain)]


def of_tests(name):
    """A module of tests/; a module of tools/ may have its name too."""
    spec = importlib.util.spec_from_file_location(f'tests_{name}', os.path.join(TOP, 'tests', f'{name}.py'))
    module = importlib.util.module_from_spec(spec)
    spec.loader.exec_module(module)
    return module
