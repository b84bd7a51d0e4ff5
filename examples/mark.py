#!/usr/bin/env python3
"""mark.py --send MARK SOURCE DESTINATION SECONDS: sends one ICMPv6 echo request with the text MARK as its data; status 0 where
the reply came in time. SOURCE is an address of this machine, or :: for the system's choice.

mark.py --watch: writes the data of each echo request that comes, a line each, until it is ended. Both want root.
"""
import os
import socket
import struct
import sys
import time

sys.dont_write_bytecode = True

sys.path.insert(0, os.path.join(os.path.dirname(os.path.abspath(__file__)), '..', 'tools'))

import command

ECHO_REQUEST, ECHO_REPLY = 128, 129
HEAD_BYTES = 8
DATA_MAX = 2048


def opened():
    try:
        return socket.socket(socket.AF_INET6, socket.SOCK_RAW, socket.IPPROTO_ICMPV6)
    except OSError as fault:
        raise command.Refusal(f'a socket for ICMPv6: {fault.strerror}', command.UNREADABLE) from None


def send(mark, source, destination, seconds):
    """The system puts the checksum in."""
    with opened() as own:
        own.bind((source, 0))
        own.sendto(struct.pack('>BBHHH', ECHO_REQUEST, 0, 0, 1, 1) + mark.encode(), (destination, 0))
        last = time.monotonic() + float(seconds)
        while (left := last - time.monotonic()) > 0:
            own.settimeout(left)
            try:
                data = own.recv(DATA_MAX)
            except TimeoutError:
                break
            if data[0] == ECHO_REPLY and data[HEAD_BYTES:] == mark.encode():
                return 0
    return command.FOUND


def watch():
    with opened() as own:
        while True:
            data = own.recv(DATA_MAX)
            if data[0] == ECHO_REQUEST:
                print(data[HEAD_BYTES:].decode('ascii', 'backslashreplace'), flush=True)


def main():
    parser = command.words(__doc__)
    does = parser.add_mutually_exclusive_group(required=True)
    does.add_argument('--send', nargs=4, metavar=('MARK', 'SOURCE', 'DESTINATION', 'SECONDS'), help='send one')
    does.add_argument('--watch', action='store_true', help='write what comes')
    options = parser.parse_args()
    return watch() if options.watch else send(*options.send)


if __name__ == '__main__':
    command.run(main)
