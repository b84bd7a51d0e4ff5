"""`serve` and a loop that sends back what it gets, asked on loopback by processes of their own."""
import os
import select
import signal
import socket
import struct
import time

import command
import make

ADDRESSES = ('127.0.0.1', '127.0.0.2')
OWN = '127.0.0.3'
PORT = 3544
QUESTIONS = 100_000  # of each address in a round
UNANSWERED = 32  # of each address at a time
IDLES = '3000'  # turns of 20 ms, after which a server ends that nobody asks any more
QUESTION = make.authentication('0102030405060708') + make.solicitation('198.51.100.7:40000')
ANSWER_LENGTH = 117
LIMIT = 10  # seconds that a server has to begin, and an answer to come
LENGTH_MAX = 2048


def why_not():
    """Why nothing can be served here, or None."""
    for address in ADDRESSES:
        try:
            bound(address, PORT).close()
        except OSError as fault:
            return f'{address} port {PORT}: {fault.strerror}; it has to be free'
    return None


def bound(address, port=0):
    found = socket.socket(socket.AF_INET, socket.SOCK_DGRAM)
    try:
        found.bind((address, port))
    except OSError:
        found.close()
        raise
    return found


def client(address):
    """A socket that asks this address, and waits for so long: the system does, which costs no call more."""
    found = bound(OWN)
    found.setsockopt(socket.SOL_SOCKET, socket.SO_RCVTIMEO, struct.pack('ll', LIMIT, 0))
    found.connect((address, PORT))
    return found


def all_questions():
    """The questions of a round: those of `ask`, and the one of `await_answer`."""
    return len(ADDRESSES) * QUESTIONS + 1


# Who answers: each is started by a call that gives the number of its process.

def program(words):
    served = [*words, 'serve', *ADDRESSES, str(all_questions()), IDLES]
    closed = [(os.POSIX_SPAWN_OPEN, number, os.devnull, os.O_RDWR, 0) for number in (0, 1, 2)]

    def begin():
        try:
            return os.posix_spawn(served[0], served, os.environ, file_actions=closed)
        except OSError as fault:
            raise command.Refusal(f'{served[0]}: {fault.strerror}', command.UNREADABLE) from None
    return begin


def loop():
    return forked(send_back)


def send_back():
    """Sends back each datagram as long as an answer is, one of each address in turn where both have some."""
    sockets = {found.fileno(): found for found in (bound(address, PORT) for address in ADDRESSES)}
    waiting = select.poll()
    for number in sockets:
        waiting.register(number, select.POLLIN)
    left = all_questions()
    while left > 0:
        for number, _ in waiting.poll():
            data, source = sockets[number].recvfrom(LENGTH_MAX)
            sockets[number].sendto(data.ljust(ANSWER_LENGTH, b'\0'), source)
            left -= 1


def forked(call, *words):
    """The number of a process that makes this call, and ends with status 0 where it came to its end."""
    number = os.fork()
    if number:
        return number
    status = 1
    try:
        call(*words)
        status = 0
    finally:
        os._exit(status)


# Who asks.

def ask(address):
    """Asks so many questions, UNANSWERED at a time; a lost one is a fault after LIMIT seconds."""
    asking = client(address)
    for _ in range(UNANSWERED):
        asking.send(QUESTION)
    for _ in range(QUESTIONS - UNANSWERED):
        receive(asking)
        asking.send(QUESTION)
    for _ in range(UNANSWERED):
        receive(asking)


def receive(asking):
    if len(asking.recv(LENGTH_MAX)) != ANSWER_LENGTH:
        raise OSError('no answer to this question')


def await_answer():
    """Asks one question, again as long as nobody is there."""
    until = time.monotonic() + LIMIT
    while time.monotonic() < until:
        with client(ADDRESSES[0]) as asking:
            try:
                asking.send(QUESTION)
                return receive(asking)
            except ConnectionRefusedError:
                time.sleep(0.01)
    raise OSError('nobody is there')


def one_round(begin):
    """Answers a second, and seconds of processor time for each datagram that was answered."""
    server = begin()
    try:
        await_answer()
        begun = time.perf_counter()
        statuses = [os.waitpid(asking, 0)[1] for asking in [forked(ask, address) for address in ADDRESSES]]
        seconds = time.perf_counter() - begun
        if any(statuses):
            raise OSError('an answer is missing')
    except OSError as fault:
        os.kill(server, signal.SIGKILL)
        os.waitpid(server, 0)
        raise command.Refusal(f'serve: {fault}; where the machine is busy, try again, or name the other parts with --only') from None
    _, _, usage = os.wait4(server, 0)
    return len(ADDRESSES) * QUESTIONS / seconds, (usage.ru_utime + usage.ru_stime) / all_questions()


def in_turns(servers, rounds):
    """What `one_round` gives of each server in each round: all rates, and all processor times."""
    found = [[one_round(begin) for begin in servers] for _ in range(rounds)]
    return [tuple(map(list, zip(*of_one))) for of_one in zip(*found)]
