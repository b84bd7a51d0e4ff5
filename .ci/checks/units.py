"""The units of the package by their texts, without systemd: sections, keys and values as they are known here, and that what a
line names is in the package. systemd passes over a key that it doesn't know, so a slip in a key takes a protection away.
"""
import os
import re

# What each service takes away from its program.
PROTECTIONS = ('DynamicUser', 'LockPersonality', 'MemoryDenyWriteExecute', 'NoNewPrivileges', 'PrivateDevices', 'PrivateUsers', 'ProtectClock',
               'ProtectControlGroups', 'ProtectHome', 'ProtectHostname', 'ProtectKernelLogs', 'ProtectKernelModules', 'ProtectKernelTunables',
               'RestrictNamespaces', 'RestrictRealtime')
TIME = r'\d+(ms|s|min|h)?'
UNIT_NAMES = r'[\w@.-]+\.(target|service|socket)( [\w@.-]+\.(target|service|socket))*'
COMMAND = r'/\S+( .*)?'
# By section: each key that a unit may have, and its values. A key with a star may stand several times.
KEYS = {
    'Unit': {'Description': '.+', 'Documentation': r'man:[\w-]+\(\d\)( man:[\w-]+\(\d\))*', 'Wants': UNIT_NAMES, 'After': UNIT_NAMES,
             'OnFailure': UNIT_NAMES, 'StartLimitIntervalSec': TIME, 'StartLimitBurst': r'\d+'},
    'Service': {'Type': 'oneshot|simple|exec', 'EnvironmentFile': r'/\S+', 'ExecStartPre*': COMMAND, 'ExecStart': COMMAND, 'Restart': 'always|on-failure|no',
                'RestartSec': TIME, 'RestartPreventExitStatus': r'\d+( \d+)*', 'MemoryMax': r'\d+[KMG]', 'UMask': '0[0-7]{3}',
                'ProtectSystem': 'strict|full|yes', 'ProtectProc': 'invisible', 'ProcSubset': 'pid', 'CapabilityBoundingSet': '',
                'RestrictAddressFamilies': r'AF_\w+( AF_\w+)*', 'IPAddressDeny': 'localhost|any', 'SystemCallArchitectures': 'native',
                'SystemCallFilter*': r'~?@[\w-]+( @[\w-]+)*',
                'IPAccounting': 'yes|no', **dict.fromkeys(PROTECTIONS, 'yes')},
    'Timer': {'OnBootSec': TIME, 'OnUnitActiveSec': TIME},
    'Install': {'WantedBy': UNIT_NAMES},
}
# What each kind of unit has to have, and no other section.
WANTED = {'service': {'Unit': ('Description',), 'Service': ('ExecStart', 'EnvironmentFile', 'CapabilityBoundingSet', 'SystemCallFilter', *PROTECTIONS)},
          'timer': {'Unit': ('Description',), 'Timer': ('OnUnitActiveSec',), 'Install': ('WantedBy',)}}
# What every system has.
OF_SYSTEM = ('/bin/sh',)


def rows_of(text):
    """Each line that says something: its section, its key and its value, and None for a line that is none of a unit."""
    section = None
    for line in text.splitlines():
        if re.fullmatch(r'\[\w+\]', line):
            section = line[1:-1]
        elif line and line[0] not in '#;':
            key, sign, value = line.partition('=')
            yield (section, key, value) if sign and section else (section, line, None)


def faults_of_row(section, key, value, seen):
    known = KEYS.get(section, {})
    pattern = known.get(key, known.get(key + '*'))
    if value is None or pattern is None:
        return f'[{section}] has {key!r}, which is no key there that is known'
    if not re.fullmatch(pattern, value):
        return f'{key} can\'t be {value!r}'
    return f'{key} stands twice' if (section, key) in seen and key in known else None


def faults_of_text(name, text):
    """What is wrong with the sections and keys of a unit."""
    found, seen = [], set()
    for section, key, value in rows_of(text):
        fault = faults_of_row(section, key, value, seen)
        found += [fault] if fault else []
        seen.add((section, key))
    wanted = WANTED[name.rpartition('.')[2]]
    found += [f'it has no {key} in [{section}]' for section, keys in wanted.items() for key in keys if (section, key) not in seen]
    return found + [f'it has a section [{section}]' for section in sorted({section for section, _ in seen} - {*wanted, 'Install'}, key=str)]


def read(path):
    with open(path, encoding='utf-8') as file:
        return file.read()


def faults_of_paths(root, rows):
    """What a unit names that isn't in the package: programs, files, variables, manual pages."""
    found, told = [], ''
    for _, key, value in rows:
        if key == 'EnvironmentFile':
            told = read(root + value) if os.path.exists(root + value) else ''
            found += [] if told else [f'there is no {value}']
        if key.startswith('Exec'):
            paths = {value.split()[0], *re.findall(r'/usr/lib/teredo/\w+', value)} - set(OF_SYSTEM)
            found += [f'{path} is no program' for path in sorted(paths) if not os.access(root + path, os.X_OK)]
            found += [f'{told_name} is no line of the defaults' for told_name in re.findall(r'\$\{?([A-Z]+)', value) if not re.search(f'^#?{told_name}=', told, re.M)]
        if key == 'Documentation':
            pages = re.findall(r'man:([\w-]+)\((\d)\)', value)
            found += [f'there is no {page}({part})' for page, part in pages if not os.path.exists(f'{root}/usr/share/man/man{part}/{page}.{part}.gz')]
    return found


def faults(root):
    """What is wrong with the units of the package that lies there."""
    folder, found = f'{root}/usr/lib/systemd/system', []
    names = sorted(os.listdir(folder))
    for name in names:
        if name.rpartition('.')[2] not in WANTED:
            found.append(f'{name} is no kind of unit that is known')
            continue
        rows = [row for row in rows_of(read(f'{folder}/{name}')) if row[2] is not None]
        found += [f'{name}: {fault}' for fault in faults_of_text(name, read(f'{folder}/{name}')) + faults_of_paths(root, rows)]
        if name.endswith('.timer') and name.replace('.timer', '.service') not in names:
            found.append(f'{name} has no service')
    return found + ([] if 'teredo.service' in names else ['there is no teredo.service'])
