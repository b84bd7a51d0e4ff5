#!/usr/bin/env python3
"""The laboratory in a browser, only on this machine: change a scenario, see the packets go.

It listens on 127.0.0.1 at a free port, and prints the address to open, which has a secret word in it: whoever doesn't know it gets
nothing. Nothing is written to a file, and nothing asks another machine. Ctrl-C ends it.

  web                opens a browser, if there is a desktop
  web FILE           begins with this scenario
  web --no-browser   only prints the address
  web --port N       at this port, as for one that is passed on by `ssh -L N:127.0.0.1:N`
"""
import contextlib
import http.server
import io
import os
import re
import secrets
import signal
import subprocess
import sys
import threading
import time
import webbrowser

sys.dont_write_bytecode = True

import analysis
import command
import gallery
import page
import player
from analysis import HTML, JSON, TEXT, TEXT_MAX

HOST = '127.0.0.1'
FOLDER = os.path.dirname(os.path.abspath(__file__))
BODY_MAX = 6 * TEXT_MAX + 65_536  # bytes of a request: each byte of the text may be written as six
SECONDS_MAX = 10  # that a request may take to come, and its answer to go
ANSWER_SECONDS = 30  # of a clock until a question that isn't answered is ended
CONNECTIONS_MAX = 32  # at once
HEADERS = {'Cache-Control': 'no-store', 'X-Content-Type-Options': 'nosniff', 'X-Frame-Options': 'DENY', 'Referrer-Policy': 'no-referrer',
           'Cross-Origin-Resource-Policy': 'same-origin', 'Cross-Origin-Opener-Policy': 'same-origin'}


class Refused(Exception):
    """A request that isn't answered, with its status and a line."""

    def __init__(self, status, text):
        super().__init__(text)
        self.status = status


class Arriving(io.RawIOBase):
    """What comes from a socket, until a moment: a sender that is slow byte by byte is cut off as well."""

    def __init__(self, connection, until):
        super().__init__()
        self.connection, self.until = connection, until

    def readable(self):
        return True

    def readinto(self, buffer):
        left = self.until - time.monotonic()
        if left <= 0:
            raise TimeoutError
        self.connection.settimeout(left)
        return self.connection.recv_into(buffer)


class Answers:
    """Questions of the page, each answered by a process of its own: analysis.py has what is asked, and the bounds."""

    def __init__(self, playing):
        self.words = [sys.executable, '-B', os.path.join(FOLDER, 'analysis.py'), getattr(playing, 'program', '-')]
        self.turns, self.lock, self.running = threading.BoundedSemaphore(os.cpu_count() or 1), threading.Lock(), set()
        self.idle = [self.start()]  # so that no question waits until Python has begun

    def start(self):
        started = subprocess.Popen(self.words, stdin=subprocess.PIPE, stdout=subprocess.PIPE, stderr=subprocess.DEVNULL, start_new_session=True)
        with self.lock:
            self.running.add(started)
        return started

    def taken(self):
        """A process that waits for its question."""
        with self.lock:
            ready = self.idle.pop() if self.idle else None
        return ready or self.start()

    def ask(self, word, data):
        """The status, the kind and the bytes of an answer."""
        if not self.turns.acquire(timeout=SECONDS_MAX):
            raise Refused(422, 'too much is asked at once; try again')
        try:
            return self.finish(self.taken(), word, data)
        finally:
            self.turns.release()

    def finish(self, started, word, data):
        try:
            written, _ = started.communicate(word.encode() + b'\n' + data, timeout=ANSWER_SECONDS)
        except subprocess.TimeoutExpired:
            raise Refused(422, analysis.TOO_MUCH) from None
        finally:
            self.end(started)
            with self.lock:
                is_wanted = not self.idle
            if is_wanted:
                self.idle.append(self.start())
        head, _, body = written.partition(b'\n')
        if not re.fullmatch(rb'\d{3} \d', head):  # ended by its bounds
            raise Refused(422, analysis.TOO_MUCH)
        return int(head[:3]), analysis.KINDS[int(head[4:])], body

    def end(self, started):
        """Ends a process, with the program that it played."""
        with contextlib.suppress(ProcessLookupError, PermissionError):
            os.killpg(started.pid, signal.SIGKILL)
        started.wait()
        for pipe in (started.stdin, started.stdout):
            with contextlib.suppress(OSError):
                pipe.close()
        with self.lock:
            self.running.discard(started)

    def close(self):
        with self.lock:
            left = list(self.running)
        for started in left:
            self.end(started)


class Handler(http.server.BaseHTTPRequestHandler):
    """One request of one connection."""

    server_version, sys_version = 'teredo', ''

    def setup(self):
        super().setup()
        self.rfile = io.BufferedReader(Arriving(self.connection, time.monotonic() + SECONDS_MAX))

    def handle(self):
        try:
            super().handle()
        except (OSError, ValueError):  # the other side is gone, or too slow, or sends no HTTP
            self.close_connection = True

    def do_GET(self):
        self.guarded(self.get)

    def do_POST(self):
        self.guarded(self.post)

    def guarded(self, answer):
        """Answers, or says in a line why not. Whatever goes wrong, nothing of the inside is told."""
        try:
            self.look_at()
            status, kind, body = answer()
        except Refused as fault:
            status, kind, body = fault.status, TEXT, f'{fault}\n'.encode()
        except TimeoutError:
            status, kind, body = 408, TEXT, b'too slow\n'
        except (RecursionError, MemoryError, Exception) as fault:  # a fault of ours: the page says so, and the server goes on
            status, kind, body = 500, TEXT, f'a fault of this tool: {type(fault).__name__}; please tell its authors\n'.encode()
        self.send(status, kind, body)

    def look_at(self):
        """Who asks, by which name, and for whom: a page of another origin is refused, and so is a name that was bent to this address."""
        if self.headers.get_all('Host') != [self.server.name]:
            raise Refused(421, f'this is {self.server.name} alone')
        origin = self.headers.get_all('Origin') or []
        if origin not in ([], [f'http://{self.server.name}']) or self.headers.get('Sec-Fetch-Site', 'none') not in ('none', 'same-origin'):
            raise Refused(403, 'another origin asks')
        if self.command == 'POST' and not origin:
            raise Refused(403, 'no origin is said')
        word, slash, self.asked = self.path[1:].partition('/')
        if not slash or not secrets.compare_digest(word.encode('utf-8', 'replace'), self.server.secret.encode()):
            raise Refused(404, 'there is nothing here')

    def get(self):
        if self.asked:
            raise Refused(404, 'there is nothing here')
        return 200, HTML, self.server.page

    def post(self):
        if self.asked not in analysis.WORDS:
            raise Refused(404, 'there is nothing here')
        if self.headers.get('Content-Type') != JSON:
            raise Refused(415, f'only {JSON} is read')
        return self.server.answers.ask(self.asked, self.body())

    def body(self):
        lengths = self.headers.get_all('Content-Length') or []
        if self.headers.get('Transfer-Encoding') or len(lengths) != 1 or not (lengths[0].isascii() and lengths[0].isdecimal()):
            raise Refused(411, 'the length of the body is to be said')
        if len(lengths[0]) > 12 or int(lengths[0]) > BODY_MAX:
            raise Refused(413, f'a body has at most {BODY_MAX:,} bytes')
        return self.rfile.read(int(lengths[0]))

    def send(self, status, kind, body):
        self.close_connection = True
        self.connection.settimeout(SECONDS_MAX)
        self.send_response(status)
        for name, value in {'Content-Type': kind, 'Content-Length': str(len(body)), 'Connection': 'close', **HEADERS}.items():
            self.send_header(name, value)
        if kind == HTML:
            self.send_header('Content-Security-Policy', page.policy("'self'") + "; frame-ancestors 'none'")
        self.end_headers()
        self.wfile.write(body)

    def send_error(self, code, message=None, explain=None):
        """What is no request at all is answered in a line too."""
        self.send(code, TEXT, b'this is no request that is answered here\n')

    def log_message(self, *words):
        pass


class Server(http.server.ThreadingHTTPServer):
    daemon_threads, block_on_close, allow_reuse_address = True, False, True

    def __init__(self, port, playing, text, name):
        super().__init__((HOST, port), Handler)
        self.name, self.secret = f'{HOST}:{self.server_address[1]}', secrets.token_urlsafe(16)
        self.answers, self.places = Answers(playing), threading.BoundedSemaphore(CONNECTIONS_MAX)
        self.page = page.html('Teredo laboratory', {'is_alone': False, 'name': name, 'text': text, 'gallery': gallery.groups(),
                                                     'note': playing.note}, "'self'").encode()

    @property
    def address(self):
        return f'http://{self.name}/{self.secret}/'

    def process_request(self, request, client_address):
        if self.places.acquire(blocking=False):
            super().process_request(request, client_address)
        else:
            self.shutdown_request(request)

    def process_request_thread(self, request, client_address):
        try:
            super().process_request_thread(request, client_address)
        finally:
            self.places.release()

    def handle_error(self, request, client_address):
        pass  # the other side is gone


def has_desktop():
    return sys.platform in ('darwin', 'win32') or bool(os.environ.get('DISPLAY') or os.environ.get('WAYLAND_DISPLAY'))


def serve(options):
    text = command.read(options.file) if options.file else gallery.text_of(gallery.QUESTIONS[0][1])
    name = os.path.basename(options.file) if options.file else f'{gallery.QUESTIONS[0][1]}.toml'
    playing = player.player_of(options.program)
    if playing.note:
        command.tell(playing.note)
    try:
        server = Server(options.port, playing, text, name)
    except (OSError, OverflowError) as fault:
        raise command.Refusal(f'port {options.port}: {getattr(fault, "strerror", None) or fault}', command.UNREADABLE) from None
    print(server.address, flush=True)
    command.tell('open this address in a browser; Ctrl-C ends it')
    if not options.no_browser and has_desktop():
        threading.Thread(target=webbrowser.open, args=(server.address,), daemon=True).start()
    try:
        server.serve_forever()
    except KeyboardInterrupt:
        command.tell('ended')
    finally:
        server.socket.close()
        server.answers.close()
    return 0


def main():
    parser = command.with_program(command.words(__doc__))
    parser.add_argument('file', metavar='FILE', nargs='?', help='a scenario to begin with')
    parser.add_argument('--port', metavar='N', type=command.number, default=0, help='the port; a free one where none is named')
    parser.add_argument('--no-browser', action='store_true', help='open no browser')
    return serve(parser.parse_args())


if __name__ == '__main__':
    command.run(main)
