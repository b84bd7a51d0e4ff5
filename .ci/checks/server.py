"""The server of the laboratory, by plain sockets.

- Hostile requests: without the secret word, by another name, from another origin, for a file, too large, too slow, by too many
  at once, in forms that are no request; each is refused, nothing else is told, and the page is served as before.
- Plays are bounded in time and in number; an interrupt ends all that was started. An answer is bounded in time and memory, whatever
  a program writes.
"""
import glob
import json
import os
import re
import socket
import tempfile
import threading
import time

import command
import player
import web
from laboratory import EXAMPLE, Running, WAIT, refusal, script

SLOW = '#!/bin/sh\nsleep 60\n'
ENDLESS = '#!/bin/sh\nexec yes "0 0 0 tick a rs_cone"\n'
DEAF = '#!/bin/sh\nexec sleep 60\n'
DENIED = ('script-src', "default-src 'none'", 'sha256-')


def strangers(running):
    """Requests of who doesn't know the word, comes by another name or origin, or asks for a file: each with its due status."""
    port, page_path = running.port, f'/{running.secret}/'
    play = {'path': page_path + 'play', 'method': 'POST', 'body': json.dumps({'text': ''}).encode()}
    paths = ['/', '/x/', '//', '/favicon.ico', '/' + running.secret, f'/{running.secret[:-1]}/', page_path + 'page.py', page_path + '../../etc/passwd',
             page_path + '%2e%2e/teredo', page_path + '/etc/passwd', page_path + '?x', f'/{running.secret}x/', '/../' + running.secret, '*']
    yield from ((404, {'path': path}) for path in paths)
    yield from ((421, {'Host': host}) for host in ('evil.example', f'evil.example:{port}', '127.0.0.1', f'localhost:{port}', f'127.0.0.1:{port}.evil.example',
                                                   f'127.0.0.1:{port + 1}', f'127.0.0.2:{port}', '', None, f'127.0.0.1:{port}\r\nHost: evil.example'))
    for origin in ('http://evil.example', 'null', f'https://127.0.0.1:{port}', f'http://127.0.0.1:{port + 1}', f'http://localhost:{port}', ''):
        yield 403, {'Origin': origin}
        yield 403, {**play, 'Origin': origin}
    yield 403, {**play, 'Origin': None}
    yield 403, {**play, 'Origin': f'http://127.0.0.1:{port}\r\nOrigin: http://evil.example'}
    yield from ((403, {'Sec_Fetch_Site': site}) for site in ('cross-site', 'same-site'))
    yield from ((415, {**play, 'Content_Type': kind}) for kind in ('text/plain', 'application/x-www-form-urlencoded', None))
    yield from ((404, {**play, 'path': page_path + word}) for word in ('', 'shell', 'play/', '__class__', 'playing'))
    yield from ((501, {'method': method, 'path': page_path}) for method in ('OPTIONS', 'PUT', 'DELETE', 'TRACE', 'CONNECT', 'GET\x01'))


def bodies(running):
    """Bodies that are too large or none, each with its due status."""
    play = {'path': f'/{running.secret}/play', 'method': 'POST'}
    for length in ('99999999999', str(web.BODY_MAX + 1), '9' * 400):
        yield 413, {**play, 'Content_Length': length}
    for length in ('-1', '+5', '5 5', '0x5', '', None, '5\r\nContent-Length: 6', '\u0663'.encode().decode('latin-1')):
        yield 411, {**play, 'Content_Length': length, 'body': b'{}'}
    yield 411, {**play, 'Transfer_Encoding': 'chunked', 'body': b'2\r\n{}\r\n0\r\n\r\n'}
    for body in (b'', b'{', b'[]', b'null', b'7', b'"x"', b'\xff\xfe', b'[' * 200_000, b'{"text":' * 5000, b'1' * 100_000):
        yield 400, {**play, 'body': body}
    for sent in ({}, {'text': None}, {'text': 7}, {'text': ['x']}, {'text': 'x' * (web.TEXT_MAX + 1)}, {'text': '\ud800'}, {'text': '# chain: a\0b\n'},
                 {'text': '# chain: ' + 'n1:n2,' * 200_000}):
        yield 422, {**play, 'body': json.dumps(sent).encode()}
    for sent in ({'text': '', 'from': 'a"', 'to': 'b'}, {'text': '', 'from': ['a'], 'to': 'b'}, {'text': 'x = [', 'from': 'a', 'to': 'b'},
                 {'from': 'a', 'to': 'b'}):
        yield 422, {**play, 'path': f'/{running.secret}/probe', 'body': json.dumps(sent).encode()}
    for sent in ({}, {'text': ''}, {'text': command.read(EXAMPLE)}, *({'text': command.read(EXAMPLE), 'number': number} for number in (-1, 10 ** 6, '0', 1.5, True, None))):
        yield 422, {**play, 'path': f'/{running.secret}/datagram', 'body': json.dumps(sent).encode()}


def check_requests(program):
    found = []
    with Running(program) as running:
        for due, words in [*strangers(running), *bodies(running)]:
            status, came = running.request(**words)
            told = {name: str(value)[:60] for name, value in words.items()}
            if status != due:
                found.append(f'{told}: {status}, not {due}')
            if b'Access-Control' in came or b'Traceback' in came or running.secret.encode() in came or b'root:' in came:
                found.append(f'{told}: tells too much: {came[:300]}')
        status, came = running.request()
        if not all(word.encode() in came for word in (*DENIED, 'frame-ancestors', 'nosniff', 'no-referrer', 'no-store')):
            found.append('the page has lost a header')
        found += [] if running.is_well() else ['after all that the page is not served']
        said, status = running.end()
        found += [f'it ended with {status}, {said[-300:]}'] if status or 'Traceback' in said else []
    return found


def garbage():
    """What is no request."""
    yield b'\r\n\r\n'
    yield b'\x16\x03\x01\x02\x00\x01\x00\x01\xfc\x03\x03' + bytes(200)
    yield b'GET\r\n\r\n'
    yield b'GET / HTTP/9.9\r\n\r\n'
    yield b'GET ' + b'/' * 70_000 + b' HTTP/1.1\r\n\r\n'
    yield b'GET / HTTP/1.1\r\n' + b'x: y\r\n' * 500 + b'\r\n'
    yield b'GET / HTTP/1.1\r\n' + b'x' * 70_000 + b'\r\n\r\n'
    yield b'GET / HTTP/1.1\r\nHost\r\n\r\n'
    yield os.urandom(5000)


def check_garbage(program):
    found = []
    with Running(program) as running:
        for data in garbage():
            status, came = running.raw(data)
            if status == 200 or b'Traceback' in came:
                found.append(f'{data[:40]}: {status}')
        found += [] if running.is_well() else ['after that the page is not served']
        for address in ('127.0.0.2', socket.gethostbyname(socket.gethostname())):
            if address != '127.0.0.1' and is_open(address, running.port):
                found.append(f'it listens on {address} too')
        said, status = running.end()
        found += [f'it ended with {status}, {said[-300:]}'] if status or 'Traceback' in said else []
    return found


def is_open(address, port):
    try:
        with socket.create_connection((address, port), timeout=2):
            return True
    except OSError:
        return False


def drip(connection, data, until):
    """Sends a byte again and again until the other side has enough; how long that was."""
    begun = time.monotonic()
    connection.settimeout(1)
    for at in range(until):
        try:
            connection.sendall(data[at % len(data):at % len(data) + 1])
            connection.settimeout(0.2)
            if connection.recv(4096) == b'':
                break
        except TimeoutError:
            continue
        except OSError:
            break
    return time.monotonic() - begun


def check_slow(program):
    """Heads and bodies byte by byte, and connections that say nothing: all are cut off, and meanwhile others are answered."""
    found = []
    with Running(program) as running:
        head = f'POST /{running.secret}/play HTTP/1.1\r\nHost: 127.0.0.1:{running.port}\r\nOrigin: http://127.0.0.1:{running.port}\r\n'
        slow = [(b'GET / HTTP/1.1\r\n', b'x: y\r\n'), ((head + 'Content-Type: application/json\r\nContent-Length: 1000000\r\n\r\n').encode(), b' ')]
        lasted, threads = [], []
        for first, rest in slow:
            connection = socket.create_connection(('127.0.0.1', running.port))
            connection.sendall(first)
            threads.append(threading.Thread(target=lambda c=connection, r=rest: lasted.append(drip(c, r, 200)), daemon=True))
            threads[-1].start()
        silent = [socket.create_connection(('127.0.0.1', running.port)) for _ in range(web.CONNECTIONS_MAX - 4)]
        found += [] if running.is_well() else ['while some are slow the page is not served']
        silent += [socket.create_connection(('127.0.0.1', running.port)) for _ in range(20)]
        for thread in threads:
            thread.join(2 * web.SECONDS_MAX)
        if len(lasted) != 2 or max(lasted) > web.SECONDS_MAX + 4:
            found.append(f'slow ones lasted {lasted} s')
        for connection in silent:
            connection.close()
        found += [] if running.is_well() else ['after slow ones the page is not served']
        said, status = running.end()
        found += [f'it ended with {status}, {said[-300:]}'] if status or 'Traceback' in said else []
    return found


def children(program):
    """The processes that run a script, by their words."""
    found = []
    for path in glob.glob('/proc/[0-9]*/cmdline'):
        try:
            with open(path, 'rb') as file:
                found.append(file.read().replace(b'\0', b' ').decode('utf-8', 'replace'))
        except OSError:
            pass  # it has ended
    return [words for words in found if program in words and not re.search(r'web\.py|analysis\.py|\.ci/web', words)]


def check_bounds(program):
    """A program that doesn't end is ended, one too many waits for its turn, and an interrupt leaves nothing behind."""
    found = []
    with tempfile.TemporaryDirectory() as folder:
        slow = script(folder, 'slow', SLOW)
        playing = player.Player(slow, seconds=1, count=1)
        begun, said = time.monotonic(), []
        threads = [threading.Thread(target=lambda: said.append(refusal(lambda: playing.play('')))) for _ in range(4)]
        for thread in threads:
            thread.start()
        for thread in threads:
            thread.join(WAIT)
        if time.monotonic() - begun > 4 or len(said) != 4 or not any('no end' in text for text in said) or not any('at once' in text for text in said):
            found.append(f'four plays, of one second and one at once: {said}, {time.monotonic() - begun:.1f} s')
        with Running(slow) as running:
            asking = threading.Thread(target=lambda: running.ask('play', {'text': ''}), daemon=True)
            asking.start()
            until = time.monotonic() + WAIT / 2
            while not children(slow) and time.monotonic() < until:
                time.sleep(0.1)
            were = len(children(slow))
            said, status = running.end()
            time.sleep(0.3)
            if were != 1 or children(slow) or status or 'Traceback' in said:
                found.append(f'an interrupt: {were} were played, {children(slow)} are left, status {status}, {said[-300:]}')
    return found


def check_answers(program):
    """An answer that takes too much memory or too long ends with a sentence, with all that it started, and the next one is answered."""
    found, seconds = [], web.ANSWER_SECONDS
    with tempfile.TemporaryDirectory() as folder:
        endless, deaf = script(folder, 'endless', ENDLESS), script(folder, 'deaf', DEAF)
        for path in (endless, deaf):
            asked = web.Answers(player.Player(path))
            try:
                web.ANSWER_SECONDS = 5
                said = asked.ask('play', b'{"text": ""}')
            except web.Refused as fault:
                said = fault.status, '', str(fault).encode()
            finally:
                web.ANSWER_SECONDS = seconds
                asked.close()
            if said[0] != 422 or b'too much' not in said[2] or children(path):
                found.append(f'{path}: {said[0]}, {said[2][:300]}, and {children(path)} are left')
    asked = web.Answers(player.Stored())
    try:
        got = [asked.ask('play', data)[0] for data in (b'{"text": "x"}', b'[', json.dumps({'text': command.read(EXAMPLE)}).encode())]
        found += [] if got == [422, 400, 200] else [f'the stored examples: {got}']
    finally:
        asked.close()
    return found
