"""What the checks of the laboratory share: the server as a process, an example, a program that is a script."""
import json
import os
import re
import signal
import socket
import subprocess
import sys

import command
import flow

TOP = os.path.dirname(os.path.dirname(os.path.dirname(os.path.abspath(__file__))))
WAIT = 20  # seconds for an answer
EXAMPLE = os.path.join(TOP, 'examples', 'scenarios', 'two_port_restricted.toml')
REFUSED = os.path.join(TOP, 'examples', 'scenarios', 'refused.toml')
NO_REACH = '#!/bin/sh\nif [ "$1" = reach ]; then echo words; exit 2; fi\nexec {} "$@"\n'  # in front of a program
HOSTILE = '</script><script>document.title="bad"</script><!--\u2028'


class Running:
    """`web`, run as a process with a program."""

    def __init__(self, program, *words):
        self.process = subprocess.Popen([sys.executable, os.path.join(TOP, 'tools', 'web.py'), '--no-browser', '--program', program, *words],
                                        stdout=subprocess.PIPE, stderr=subprocess.PIPE, text=True)
        self.address = self.process.stdout.readline().strip()
        self.port = int(re.search(r':(\d+)/', self.address)[1])
        self.secret = self.address.split('/')[3]

    def end(self):
        """What it said on standard error, and its status."""
        self.process.send_signal(signal.SIGINT)
        _, said = self.process.communicate(timeout=WAIT)
        return said, self.process.returncode

    def __enter__(self):
        return self

    def __exit__(self, *fault):
        if self.process.poll() is None:
            self.process.kill()
            self.process.communicate()

    def raw(self, data, wait=WAIT):
        """The status of what is answered to these bytes, 0 where nothing is, and all of it."""
        with socket.create_connection(('127.0.0.1', self.port), timeout=wait) as connection:
            try:
                connection.sendall(data)
                came = b''.join(iter(lambda: connection.recv(65536), b''))
            except (ConnectionError, TimeoutError):
                return 0, b''
        return (int(came.split(b' ')[1]) if came.startswith(b'HTTP/') else 0), came

    def request(self, path=None, method='GET', body=b'', **changes):
        """The same of a request with these headers beside, or in place of, those that the page sends; None leaves one out."""
        headers = {'Host': f'127.0.0.1:{self.port}'}
        if method == 'POST':
            headers |= {'Origin': f'http://127.0.0.1:{self.port}', 'Content-Type': 'application/json', 'Content-Length': str(len(body))}
        headers |= {name.replace('_', '-'): value for name, value in changes.items()}
        lines = [f'{method} {f"/{self.secret}/" if path is None else path} HTTP/1.1']
        lines += [f'{name}: {value}' for name, value in headers.items() if value is not None]
        return self.raw('\r\n'.join(lines).encode('latin-1') + b'\r\n\r\n' + body)

    def ask(self, word, sent, **changes):
        return self.request(f'/{self.secret}/{word}', 'POST', json.dumps(sent).encode(), **changes)

    def is_well(self):
        """Whether the page is served, and a scenario played."""
        status, came = self.ask('play', {'text': command.read(EXAMPLE)})
        return self.request()[0] == 200 and status == 200 and b'"records"' in came


def script(folder, name, text):
    path = os.path.join(folder, name)
    with open(path, 'w', encoding='utf-8') as file:
        file.write(text)
    os.chmod(path, 0o755)
    return path


def refusal(act):
    try:
        act()
    except command.Refusal as fault:
        return str(fault)
    return ''


def flow_svg(program, path, *words):
    return '\n'.join(flow.lines_of(flow.options_of([path, '--svg', '--program', program, *words]))) + '\n'
