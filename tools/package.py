#!/usr/bin/env python3
"""A Debian package and a tarball of the built program: byte for byte the same from one commit and one program.

  package                          into out/: teredo_VERSION_amd64.deb, where dpkg-deb is there, teredo-VERSION.tar.gz, SHA256SUMS
  package --gate 'LINE' --commit HASH --sum SHA256
                                   with the last line of `.ci/run` or `rt ci`, the commit that it ran on, and the sum of the program
                                   that it left. Where something failed, or this is another commit or program, it is refused;
                                   PROVED has the line, and says what of the three was left out
  package --program FILE --out FOLDER

What is in both: the program, `teredo` with its tools, pages, examples, tests and schemas, manual pages, completion for bash, zsh
and fish, what tools/service/ has for systemd and a firewall, and PROVED, which says what was proved. They run on a Linux on x86-64, with
Python 3.10 for the tools, without the kit and without the repository.
"""
import gzip
import hashlib
import io
import os
import re
import shutil
import stat
import subprocess
import sys
import tarfile
import tempfile

sys.dont_write_bytecode = True

import command
import man
import proved

LIB = 'usr/lib/teredo'
DOC = 'usr/share/doc/teredo'
UNITS = 'usr/lib/systemd/system'
DEFAULTS = 'etc/default/teredo'
COMPLETIONS = {'bash': 'usr/share/bash-completion/completions/teredo', 'zsh': 'usr/share/zsh/vendor-completions/_teredo',
               'fish': 'usr/share/fish/vendor_completions.d/teredo.fish'}
UNIT_NAMES = ('teredo.service', 'teredo-probe.service', 'teredo-probe.timer')
RULES = ('firewall.nft', 'limit.nft')
SCRIPTS = ('postinst', 'prerm', 'postrm')
SERVICE = 'tools/service/'
WORKED = 'tests/worked'  # cases of the gate's, and their names
FOLDERS = ('docs/', 'tools/', 'examples/', 'tests/', 'bench/')
PAGES = ('README.md', 'ARCHITECTURE.md', 'CONTRIBUTING.md', 'SECURITY.md', 'CHANGELOG.md')
# Pages lead to the code of crates, which no package has: there the name stays, and the link goes.
TO_CODE = re.compile(rb'\[([^\]\n]+)\]\((?:\.\./)?crates/[^)\n]*\)')
LEFT_OUT = ('tools/package.py', 'tools/proved.py', 'tools/build.py')


def git(*words):
    """What git says of the repository, or None where there is none."""
    try:
        done = subprocess.run(['git', '-C', command.TOP, *words], stdout=subprocess.PIPE, stderr=subprocess.DEVNULL, check=True)
    except (OSError, subprocess.CalledProcessError):
        return None
    return done.stdout.decode().strip()


def text_of(path):
    return command.read(os.path.join(command.TOP, path))


def version():
    return text_of('VERSION').strip()


class Origin:
    """The commit that a package is made from."""

    def __init__(self):
        self.commit = git('rev-parse', 'HEAD')
        if self.commit is None:
            raise command.Refusal('this is no checkout: a package says which commit it is of, and git says none')
        self.is_changed = bool(git('status', '--porcelain'))
        self.seconds = int(git('log', '-1', '--format=%ct'))
        self.date = git('log', '-1', '--format=%cd', '--date=format:%Y-%m-%d')
        self.rfc_date = git('log', '-1', '--format=%cD')
        self.who = git('log', '-1', '--format=%cn <%ce>')

    @property
    def told(self):
        return self.commit[:12] + (', and changes' if self.is_changed else '')


def built():
    """The built program, which ./teredo holds for as young as its sources."""
    said = subprocess.run([command.PROGRAM, '--version'], stdout=subprocess.PIPE).stdout.decode().splitlines()
    found = re.fullmatch(r'the program is built: (.*)', said[-1]) if said else None
    if not found:
        raise command.Refusal('the program isn\'t built from these sources: ./teredo build builds it', command.NOT_BUILT)
    return found[1]


def is_packed(path):
    if path in LEFT_OUT or path.startswith((SERVICE, WORKED)):
        return False
    return path.startswith(FOLDERS) or path in PAGES or path in ('teredo', 'VERSION')


def contents(origin, options):
    """What a package has: path, bytes, and whether it may be executed."""
    with open(options.program, 'rb') as file:
        code = file.read()
    proved.refuse_what_is_false(origin, options, code)
    made = {f'{LIB}/teredo_cli': (code, True), f'{LIB}/COMMIT': (origin.told + '\n', False),
            f'{LIB}/PROVED': (proved.page(version(), origin, options, code), False)}
    for path in filter(is_packed, git('ls-files', '-z').split('\0')):
        if os.path.exists(os.path.join(command.TOP, path)):
            with open(os.path.join(command.TOP, path), 'rb') as file:
                may_run = path == 'teredo' or path.endswith(('.py', '.sh')) and file.peek(2)[:2] == b'#!'
                data = file.read()
                made[f'{LIB}/{path}'] = TO_CODE.sub(rb'\1', data) if path.endswith('.md') else data, may_run
    return made | system_files()


def system_files():
    """What stands where the system looks for it: manual pages, completion, units; and rules for a firewall."""
    made = {DEFAULTS: (text_of(SERVICE + 'defaults'), False)}
    made |= {path: (text_of(f'tools/completion.{shell}'), False) for shell, path in COMPLETIONS.items()}
    for name, lines in man.pages().items():
        made[f'usr/share/man/man{name[-1]}/{name}.gz'] = (packed('\n'.join(lines).encode() + b'\n'), False)
    return made | {f'{folder}/{name}': (text_of(SERVICE + name), False) for folder, names in ((UNITS, UNIT_NAMES), (LIB, RULES)) for name in names}


LINKS = {'usr/bin/teredo': '../lib/teredo/teredo', f'{DOC}/examples': '../../../lib/teredo/examples',
         f'{DOC}/docs': '../../../lib/teredo/docs', f'{DOC}/PROVED': '../../../lib/teredo/PROVED'}


def packed(data):
    return gzip.compress(data, 9, mtime=0)


def as_bytes(data):
    return data if isinstance(data, bytes) else data.encode()


def tarball(made, origin):
    """A tarball of the files, below teredo-VERSION/, in the order of their names, all of one moment and of nobody."""
    raw = io.BytesIO()
    with tarfile.open(fileobj=raw, mode='w', format=tarfile.GNU_FORMAT) as archive:
        for path in sorted({**made, **LINKS}):
            entry = tarfile.TarInfo(f'teredo-{version()}/{path}')
            entry.mtime = origin.seconds
            if path in LINKS:
                entry.type, entry.linkname = tarfile.SYMTYPE, LINKS[path]
                archive.addfile(entry)
                continue
            data, may_run = as_bytes(made[path][0]), made[path][1]
            entry.size, entry.mode = len(data), 0o755 if may_run else 0o644
            archive.addfile(entry, io.BytesIO(data))
    return packed(raw.getvalue())


def library(made):
    """The C library that the program wants, by the versions of names that stand in it."""
    found = re.findall(rb'GLIBC_(\d+)\.(\d+)', made[f'{LIB}/teredo_cli'][0])
    most = max(((int(major), int(minor)) for major, minor in found), default=(2, 34))
    return f'libc6 (>= {most[0]}.{most[1]})'


def control(made, origin):
    size = sum(len(as_bytes(data)) for data, _ in made.values()) // 1024 + 1
    return (f'Package: teredo\nVersion: {version()}\nArchitecture: amd64\nMaintainer: {origin.who}\nInstalled-Size: {size}\n'
            f'Depends: bash (>= 4.4), {library(made)}\nRecommends: python3 (>= 3.10)\nSection: net\nPriority: optional\n'
            'Description: server and laboratory for IPv6 through NATs (RFC 4380)\n'
            ' Teredo (RFC 4380) carries IPv6 packets in UDP datagrams through NATs. This\n'
            ' program serves on real sockets, asks a real server what NAT a machine is\n'
            ' behind, plays servers, clients, relays and NATs on a simulated wire, and says\n'
            ' for each datagram which rule decided its fate. It is proved against its\n'
            ' contracts: the file PROVED says what.\n')


COPYRIGHT = 'Copyright (C) {year} the authors of teredo, whom the log of its repository names.\n\nNo licence is given yet: that is the owner\'s to name.\n'
OVERRIDES = '''# The program is packed as it was proved and built, byte for byte.
teredo: unstripped-binary-or-object *
teredo: hardening-no-fortify-functions *
# Bytes of its code that look like words.
teredo: spelling-error-in-binary *
# The tools read the pages, where the tools lie.
teredo: package-contains-documentation-outside-usr-share-doc *
# The server is one line of the shell where there is no systemd.
teredo: package-supports-alternative-init-but-no-init.d-script *
# A removal takes the links of what an operator enabled, which deb-systemd-helper knows nothing of.
teredo: maintainer-script-calls-systemctl *
'''


def put(folder, path, data, mode):
    path = os.path.join(folder, path)
    os.makedirs(os.path.dirname(path), exist_ok=True)
    with open(path, 'wb') as file:
        file.write(as_bytes(data))
    os.chmod(path, mode)


def deb(made, origin, path):
    """A Debian package, by dpkg-deb: every file is of one moment and of root."""
    log = f'teredo ({version()}) unstable; urgency=medium\n\n  * Commit {origin.told}: CHANGELOG.md has what there is.\n\n -- {origin.who}  {origin.rfc_date}\n'
    made = made | {f'{DOC}/copyright': (COPYRIGHT.format(year=origin.date[:4]), False), f'{DOC}/changelog.gz': (packed(log.encode()), False),
                   'usr/share/lintian/overrides/teredo': (OVERRIDES, False)}
    with tempfile.TemporaryDirectory() as folder:
        for name, (data, may_run) in made.items():
            put(folder, name, data, 0o755 if may_run else 0o644)
        for name, target in LINKS.items():
            os.makedirs(os.path.dirname(os.path.join(folder, name)), exist_ok=True)
            os.symlink(target, os.path.join(folder, name))
        sums = ''.join(f'{hashlib.md5(as_bytes(data)).hexdigest()}  {name}\n' for name, (data, _) in sorted(made.items()))
        put(folder, 'DEBIAN/control', control(made, origin), 0o644)
        put(folder, 'DEBIAN/md5sums', sums, 0o644)
        put(folder, 'DEBIAN/conffiles', f'/{DEFAULTS}\n', 0o644)
        for name in SCRIPTS:
            put(folder, f'DEBIAN/{name}', text_of(SERVICE + name), 0o755)
        for place, folders, files in os.walk(folder):
            os.chmod(place, stat.S_IMODE(0o755))
            for name in folders + files:
                os.utime(os.path.join(place, name), (origin.seconds, origin.seconds), follow_symlinks=False)
        os.utime(folder, (origin.seconds, origin.seconds))
        done = subprocess.run(['dpkg-deb', '--root-owner-group', '-Zgzip', '-z9', '--build', folder, path], stdout=subprocess.DEVNULL,
                              stderr=subprocess.PIPE, env={**os.environ, 'SOURCE_DATE_EPOCH': str(origin.seconds)})
    if done.returncode:
        raise command.Refusal(f'dpkg-deb: {done.stderr.decode().strip()}')


def pack(options):
    origin = Origin()
    options.is_named, options.program = bool(options.program), options.program or built()
    made = contents(origin, options)
    try:
        os.makedirs(options.out, exist_ok=True)
        paths = [os.path.join(options.out, f'teredo-{version()}.tar.gz')]
        with open(paths[0], 'wb') as file:
            file.write(tarball(made, origin))
        if shutil.which('dpkg-deb'):
            paths.append(os.path.join(options.out, f'teredo_{version()}_amd64.deb'))
            deb(made, origin, paths[1])
        else:
            print('package: there is no dpkg-deb, so the tarball alone is made', file=sys.stderr)
        sums = ''
        for path in paths:
            with open(path, 'rb') as file:
                sums += f'{hashlib.sha256(file.read()).hexdigest()}  {os.path.basename(path)}\n'
        command.write(os.path.join(options.out, 'SHA256SUMS'), sums)
    except OSError as fault:
        raise command.Refusal(f'{fault.filename or options.out}: {fault.strerror}', command.UNREADABLE) from None
    print(sums, end='')
    return 0


def main():
    parser = command.words(__doc__)
    parser.add_argument('--program', metavar='FILE', help='the built program; the one of this checkout where none is named')
    parser.add_argument('--gate', metavar='LINE', help='the last line of a gate that passed')
    parser.add_argument('--commit', metavar='HASH', help='the commit that the gate ran on')
    parser.add_argument('--sum', metavar='SHA256', help='of the program that the gate left')
    parser.add_argument('--out', metavar='FOLDER', default=os.path.join(command.TOP, 'out'), help='where to; out/ where none is named')
    options = parser.parse_args()
    if options.program and not os.access(options.program, os.X_OK):
        raise command.Refusal(f'{options.program}: is no program', command.UNREADABLE)
    return pack(options)


if __name__ == '__main__':
    command.run(main)
