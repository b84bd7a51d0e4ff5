#!/usr/bin/env python3
"""nats.py [PROGRAM]: what `qualify` says behind NATs that Linux makes, asked of a `serve` of the same program.

Makes three networks a kind, which are a client's, a NAT's and a server's (`ip netns`, veth pairs, `nft`), plays N clients
at once in each, 10 where N isn't given, compares each answer and the server's last line, and removes the networks again.
A client behind a NAT that isn't a cone waits for 12 seconds, so all takes a quarter of a minute. It wants Linux, root,
and the commands `ip` (iproute2) and `nft` (nftables); where one of them is refused, a line says which and why, with status 1.
`--rules` prints the rules of each kind, and plays nothing.

nats.py --client COMMAND: the same with a client of your own, one behind each kind. COMMAND is a line for `sh`, and finds in
its environment SERVER and SECONDARY, the server's two addresses, INSIDE, its own, and NAT, the kind. It is ended after
--seconds. What the server saw is captured, and `explain` of it says whether the client went through each phase of RFC 4380,
section 5.2.1; the last line is `N passed, M failed`, with status 1 where one failed. --server COMMAND puts another server
in the place of `serve`, --captures FOLDER keeps the captures, and --only KIND plays one kind.

nats.py --two [SITUATION ..]: two real clients, or one and a native host, each behind its row of NATs, in a state; then a packet
from the first to the second, and beside it what `reach` says of the same situation. SITUATION is `A B STATE`, or `A B STATE
CARRIER`: A and B are `none`, `native` or NATs from the inner one outward as `port:cone`; where none is named, all are played
that situations.py has as usual. It wants `conntrack` and /dev/net/tun too, and miredo, or another client by --client COMMAND,
which finds SERVER, SECONDARY, PORT, HOST (a or b) and FOLDER in its environment, and makes an interface with its address. The
table at the end has how many packets arrived by each word of `reach`; the last line is `N agree, M differ, K unsaid`, with
status 1 where one differs.
"""
import argparse
import collections
import os
import shlex
import subprocess
import sys
import tempfile
import time
from concurrent.futures import ThreadPoolExecutor

sys.dont_write_bytecode = True

HERE = os.path.dirname(os.path.abspath(__file__))
sys.path.append(os.path.join(HERE, '..', 'tests'))

import make
import networks
import phases
import real
import rows
import situations
from networks import KINDS, PRIMARY, SECONDARY, Network, Refused, rules_of

BUILT = [os.path.join(HERE, '..', *path) for path in (('teredo_cli',), ('crates', 'teredo_cli', 'out', 'teredo_cli'))]  # in a package, in a checkout
PROGRAM = next(filter(os.path.isfile, BUILT), BUILT[-1])
RECORD = os.path.join(HERE, 'record.py')
COUNT_MAX = '1000000000'  # datagrams: as many as there will be
TURNS = '100000'
IDLES = '2500'
MOMENT = 0.1  # seconds for a program that has ended already
START = 1  # seconds until a server has its sockets
SECONDS = 20  # that a client has: three questions, four seconds apart, and then the others
AT_ONCE = 8  # situations of two clients: each waits for most of its time


def qualified(network, program, runs):
    """What clients of the program and its server say."""
    server = network.start(network.server, program, 'serve', PRIMARY, SECONDARY, str(runs * network.kind.sent), IDLES)
    time.sleep(START)
    clients = [network.start(network.client, program, 'qualify', network.kind.inside, PRIMARY, SECONDARY, str(seed), TURNS)
               for seed in range(runs)]
    return [networks.end(client) for client in clients], networks.end(server)


def fits(kind, line):
    """Whether a client's line is that of its kind."""
    word, _, counts = line.rpartition(' sent ')
    if counts != f'{kind.sent} failed 0':
        return False
    if kind.found == 'symmetric':
        return word == 'symmetric'
    address = word.removeprefix('qualified ')
    try:
        port = 0xffff ^ int.from_bytes(make.ip6(address)[10:12], 'big')
    except ValueError:
        return False
    return address == make.teredo(PRIMARY, f'{kind.mapped}:{port}', kind.found == 'cone')


def played(kind, program, runs):
    """Whether each answer fits its kind, and the lines that say so."""
    with Network(kind) as network:
        lines, served = qualified(network, program, runs)
    right = sum(fits(kind, line) for line in lines)
    count = runs * kind.sent
    is_served = served == f'served {count} sent {count} failed 0 six 0 dropped 0'
    told = [f'{kind.name}: {right} of {runs} fit, as {lines[0]}; the server: {served}']
    return right == runs and is_served, told + [f'{kind.name}: not so: {line}' for line in lines if not fits(kind, line)]


def captured(network, options, path):
    """What a client of the author's own and its server said, with what went by at the server in a capture there."""
    recording = network.start(network.server, sys.executable, '-B', RECORD, networks.DEVICE, path)
    served = options.server or f'exec {shlex.quote(options.program)} serve {PRIMARY} {SECONDARY} {COUNT_MAX} {COUNT_MAX}'
    server = network.start(network.server, 'sh', '-c', served)
    time.sleep(START)
    if server.poll() is not None:
        raise Refused(networks.said_until('the server', server))
    client = network.start(network.client, 'sh', '-c', options.client)
    said = [networks.said_until('the client', client, options.seconds), networks.said_until('the server', server, MOMENT)]
    refused = networks.stop(recording)
    if refused:
        raise Refused(f'{RECORD}: {refused.splitlines()[-1]}')
    return said


def tried(kind, options, folder):
    """The verdicts of a client's phases behind a kind, and the lines that say so."""
    path = os.path.join(folder, f'{kind.name}.pcap')
    with Network(kind) as network:
        said = captured(network, options, path)
    told = subprocess.run([options.program, 'explain', PRIMARY, SECONDARY, path], stdout=subprocess.PIPE, text=True, check=False).stdout
    judged = phases.Phases(kind, told).lines()
    lines = [f'{name} {verdict}: {why}' for name, verdict, why in judged] + said
    return [verdict for _, verdict, _ in judged], [f'{kind.name}: {line}' for line in lines]


def refused_or(does, otherwise):
    """What a play gives, or where the system refused a command, this and the line that says which."""
    def play(kind):
        try:
            return does(kind)
        except Refused as refused:
            return otherwise, [f'{kind.name}: REFUSED: {refused}']
    return play


def play_own(options, kinds, folder):
    does = refused_or(lambda kind: tried(kind, options, folder), [phases.FAILED])
    with ThreadPoolExecutor(len(kinds)) as pool:
        results = list(pool.map(does, kinds))
    verdicts = [verdict for found, lines in results for verdict in found]
    for _, lines in results:
        print('\n'.join(lines))
    print(f'{verdicts.count(phases.PASSED)} passed, {verdicts.count(phases.FAILED)} failed')
    return int(phases.FAILED in verdicts)


def play_qualify(options, kinds):
    does = refused_or(lambda kind: played(kind, options.program, options.runs), False)
    with ThreadPoolExecutor(len(kinds)) as pool:
        results = list(pool.map(does, kinds))
    for _, lines in results:
        print('\n'.join(lines))
    return 0 if all(is_right for is_right, _ in results) else 1


def play_two(options, chosen):
    """Plays situations with real clients, several at once; prints each beside its word, and the table of all."""
    def play(numbered):
        number, situation = numbered
        word = situations.Laboratory(situation).word(options.program)
        try:
            return situation, word, real.played(situation, number, options.program, options.client)
        except Refused as refused:
            return situation, word, f'REFUSED: {refused}'
    table, verdicts = collections.Counter(), collections.Counter()
    with ThreadPoolExecutor(options.at_once) as pool:
        for situation, word, arrived in pool.map(play, enumerate(chosen)):
            verdict = situations.verdict(word, arrived)
            print(f'{situation}: {word}, and it {told(arrived)}: {verdict}', flush=True)
            table[word, arrived is True] += 1
            verdicts[verdict] += 1
    for word in sorted({word for word, _ in table}):
        print(f'{word}: {table[word, True]} arrived, {table[word, False]} did not')
    print(f'{verdicts["agrees"]} agree, {verdicts["DIFFERS"]} differ, {verdicts["unsaid"]} unsaid')
    return 1 if verdicts['DIFFERS'] else 0


def told(arrived):
    return {True: 'arrived', False: 'did not arrive'}.get(arrived, f'did not: {arrived}')


def options_of(words):
    parser = argparse.ArgumentParser(description=__doc__, formatter_class=argparse.RawDescriptionHelpFormatter)
    parser.add_argument('program', metavar='PROGRAM', nargs='?', default=PROGRAM)
    parser.add_argument('--two', metavar='SITUATION', nargs='*', help='two clients in these situations, beside what `reach` says')
    parser.add_argument('--at-once', metavar='N', type=int, default=AT_ONCE, help=f'situations at once; {AT_ONCE} where it is not said')
    parser.add_argument('--runs', metavar='N', type=int, default=10, help='clients at once behind each kind')
    parser.add_argument('--rules', action='store_true', help='print the rules of each kind')
    parser.add_argument('--only', metavar='KIND', choices=[kind.name for kind in KINDS], help='only this kind')
    parser.add_argument('--client', metavar='COMMAND', help='a client to be tried, and not `qualify`')
    parser.add_argument('--server', metavar='COMMAND', help='a server in the place of `serve`, for --client')
    parser.add_argument('--seconds', metavar='N', type=float, default=SECONDS, help=f'that the client has; {SECONDS} where it is not said')
    parser.add_argument('--captures', metavar='FOLDER', help='keep the captures there, as KIND.pcap, for --client')
    return parser.parse_args(words)


def main():
    options = options_of(sys.argv[1:])
    kinds = [kind for kind in KINDS if options.only in (None, kind.name)]
    try:
        chosen = [situations.situation_of(words.split()) for words in options.two or ()] or situations.usual()
    except ValueError as wrong:
        print(f'nats.py: {wrong}', file=sys.stderr)
        return 2
    if options.rules:
        for kind in kinds:
            print(f'# {kind.name}\n{rules_of(kind) if kind.rules else ""}')
        return 0
    lacking = f'no program {options.program}'
    if os.access(options.program, os.X_OK):
        lacking = networks.missing() if options.two is None else rows.missing(not options.client or any(situation.has_native() for situation in chosen))
    if lacking:
        print(f'nats.py: {lacking}', file=sys.stderr)
        return 1
    options.program = os.path.realpath(options.program)
    if options.two is not None:
        return play_two(options, chosen)
    if not options.client:
        return play_qualify(options, kinds)
    if options.captures:
        return play_own(options, kinds, options.captures)
    with tempfile.TemporaryDirectory() as folder:
        return play_own(options, kinds, folder)


if __name__ == '__main__':
    sys.exit(main())
