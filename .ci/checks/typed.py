"""What mypy says of the tools, where it is installed, and whether mypy.ini lists each module of theirs that many import."""
import collections
import configparser
import re
import shutil
import subprocess

from tally import skip

MANY = 3  # modules of tools/ that import another one: such a one is typed
IMPORT = re.compile(r'^(?:from|import) (\w+)', re.M)


def listed(read):
    """The files that mypy.ini has."""
    settings = configparser.ConfigParser()
    settings.read_string(read('mypy.ini'))
    return [path.strip() for path in settings['mypy']['files'].split(',')]


def unlisted(paths, read):
    """Each module of tools/ that many of its others import, and that mypy.ini doesn't list."""
    tools = [path for path in paths if re.fullmatch(r'tools/\w+\.py', path)]
    counts = collections.Counter(f'tools/{name}.py' for path in tools for name in set(IMPORT.findall(read(path))))
    known = listed(read)
    for path in tools:
        if counts[path] >= MANY and path not in known:
            yield f'mypy.ini: does not list {path}, which {counts[path]} modules of tools/ import'


def faults(top, paths, read):
    yield from unlisted(paths, read)
    if shutil.which('mypy') is None:
        skip('mypy over tools/', 'mypy is not installed')
        return
    asked = subprocess.run(['mypy', '--no-error-summary'], cwd=top, stdout=subprocess.PIPE, stderr=subprocess.STDOUT, text=True)
    yield from asked.stdout.splitlines() if asked.returncode else ()
