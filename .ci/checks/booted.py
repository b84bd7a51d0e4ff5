"""The package in a machine that boots: systemd as the first process of a container, over a copy of this machine that is kept in
memory alone, with a network of its own.

What is tried there: a start where an address isn't the machine's, and it comes up late; a start where the port is taken; an upgrade
of a server that runs, and of one that doesn't; a removal. Each writes a line, which is compared with the one that is due. Where
no container can be booted, a line says why.
"""
import os
import re
import shutil
import subprocess
import tempfile

from tally import skip

SYSTEMD = '/lib/systemd/systemd'
LIMIT = 180  # seconds that the trial may take
# So it is boots: nothing but this unit, and what it needs.
UNIT = '''[Unit]
Requires=basic.target dbus.socket
After=basic.target
[Service]
Type=oneshot
ExecStart=/bin/sh /trial/run
StandardOutput=file:/trial/said
StandardError=file:/trial/noise
ExecStopPost=/bin/systemctl --no-block --force poweroff
'''
# The mounts are of a namespace of their own, and end with it. Nobody waits for a network that isn't there, or is forbidden to begin services.
COPY = '''set -e
mkdir over root
mount -t tmpfs tmpfs over
mkdir over/upper over/work
mount -t overlay -o lowerdir=/,upperdir=over/upper,workdir=over/work overlay root
mkdir -p root/trial root/etc/systemd/system
cp trial/unit root/etc/systemd/system/trial.service
rm -f root/etc/machine-id root/usr/sbin/policy-rc.d
for waits in systemd-networkd NetworkManager; do ln -sf /dev/null root/etc/systemd/system/$waits-wait-online.service; done
exec systemd-nspawn -q -b -D root --bind="$PWD/trial:/trial" --private-network --register=no --keep-unit --console=pipe -- --unit=trial.service
'''
TRIAL = '''
say() { echo "$*"; }
pid() { systemctl show teredo.service -p MainPID --value; }
state() { systemctl is-active teredo.service; }
begin() { systemctl start teredo.service && say "$1: started" || say "$1: refused"; }
why() { journalctl -u teredo.service -o cat --no-pager --since=-3s | grep -o "$1" | head -n 1; }
wait_for() { for _ in 1 2 3 4 5 6 7 8 9 10 11 12 13 14 15 16 17 18 19 20; do [ "$(state)" = "$1" ] && break; sleep 0.5; done; state; }
ip link set lo up
dpkg --no-triggers --force-depends -i /trial/first.deb
begin 'no address'
why '198.51.100.2: it is no address of this machine'
ip address add 198.51.100.1/32 dev lo
ip address add 198.51.100.2/32 dev lo
say "a late address: $(wait_for active)"
systemctl stop teredo.service
teredo_cli=/usr/lib/teredo/teredo_cli
$teredo_cli serve 198.51.100.2 127.0.0.1 1000000 1000000 & other=$!
sleep 1
begin 'a port that is taken'
why '198.51.100.2: UDP port 3544 is in use there'
kill $other
say "a port that is free again: $(wait_for active)"
systemctl enable teredo.service
was=$(pid)
dpkg --no-triggers --force-depends -i /trial/second.deb
[ "$(pid)" != "$was" ] && say "an upgrade: another process, $(wait_for active)" || say 'an upgrade: the same process'
systemctl stop teredo.service
dpkg --no-triggers --force-depends -i /trial/second.deb
say "an upgrade of a stopped one: $(state)"
systemctl start teredo.service
dpkg --no-triggers -r teredo
say "a removal: $(state), $(find /etc/systemd -name 'teredo*' | wc -l) links, $(ls /etc/default/teredo)"
say end
'''
DUE = '''no address: refused
198.51.100.2: it is no address of this machine
a late address: active
a port that is taken: refused
198.51.100.2: UDP port 3544 is in use there
a port that is free again: active
an upgrade: another process, active
an upgrade of a stopped one: inactive
a removal: inactive, 0 links, /etc/default/teredo
end
'''


def skipped(why):
    skip('the package in a machine that boots', why)
    return []


def boots(made):
    missing = [name for name in ('systemd-nspawn', 'unshare', 'dpkg', 'dpkg-deb', 'ip') if not shutil.which(name)]
    if os.geteuid() != 0 or missing or not os.path.exists(SYSTEMD) or made.deb is None:
        return skipped(f'it wants root, systemd, and {" and ".join(missing) or "a package"}')
    with tempfile.TemporaryDirectory() as folder:
        written = played(made, folder)
    if written is None:
        return skipped('no container boots here')
    return [f'wanted {due!r}, said {said!r}' for due, said in zip(DUE.splitlines(), written.splitlines() + [''] * DUE.count('\n')) if due != said]


def played(made, folder):
    """What the trial wrote, in a copy of this machine that is gone with the mount; None where it never began."""
    trial = os.path.join(folder, 'trial')
    os.mkdir(trial)
    shutil.copy(made.deb, os.path.join(trial, 'first.deb'))
    again(made.deb, folder, os.path.join(trial, 'second.deb'))
    for name, text in (('run', TRIAL), ('unit', UNIT)):
        with open(os.path.join(trial, name), 'w', encoding='utf-8') as file:
            file.write(text)
    with open(os.path.join(folder, 'console'), 'wb') as console:
        process = subprocess.Popen(['unshare', '-m', 'sh', '-c', COPY], cwd=folder, stdin=subprocess.DEVNULL, stdout=console, stderr=console)
        try:
            process.wait(LIMIT)
        except subprocess.TimeoutExpired:
            process.kill()
            process.wait()
    said = os.path.join(trial, 'said')
    if not os.path.exists(said):
        return None
    with open(said, encoding='utf-8', errors='replace') as file:
        return '\n'.join(line for line in file.read().splitlines() if line in DUE or re.match('[a-z ]+: |end$', line)) + '\n'


def again(deb, folder, path):
    """The same package with a later version."""
    tree = os.path.join(folder, 'tree')
    subprocess.run(['dpkg-deb', '-R', deb, tree], check=True)
    control = os.path.join(tree, 'DEBIAN', 'control')
    with open(control, encoding='utf-8') as file:
        text = re.sub('^Version: .*$', lambda line: line[0] + '+again', file.read(), flags=re.M)
    with open(control, 'w', encoding='utf-8') as file:
        file.write(text)
    subprocess.run(['dpkg-deb', '--root-owner-group', '-Znone', '--build', tree, path], check=True, stdout=subprocess.DEVNULL)
