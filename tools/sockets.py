#!/usr/bin/env python3
"""Why a UDP socket can't be opened at an address: it isn't this machine's, or its port is in use.

  sockets IP..              at any port
  sockets --port N IP..     at this port

Says a line on standard error for each address where the system refuses, and ends with status 1 then.
"""
import errno
import socket
import sys

sys.dont_write_bytecode = True

import command

REASONS = {errno.EADDRNOTAVAIL: "it is no address of this machine (`ip -4 address` lists those)",
           errno.EADDRINUSE: 'UDP port {port} is in use there (`ss -ulnp sport = :{port}` says by whom)',
           errno.EACCES: 'the system lets nobody bind there without leave'}


def why_not(address, port):
    """What the system says to a socket there, or None where it opens."""
    with socket.socket(socket.AF_INET, socket.SOCK_DGRAM) as tried:
        try:
            tried.bind((address, port))
        except OSError as fault:
            reason = REASONS.get(fault.errno)
            return f'{reason.format(port=port)}: {fault.strerror}' if reason else fault.strerror or str(fault)
    return None


def main():
    parser = command.words(__doc__)
    parser.add_argument('addresses', metavar='IP', nargs='+', help='an IPv4 address')
    parser.add_argument('--port', metavar='N', type=int, default=0, help='a UDP port; any one where none is named')
    options = parser.parse_args()
    if not 0 <= options.port <= 65535:
        raise command.Refusal('--port wants a number from 0 to 65535', command.WRONG_WORDS)
    found = [(address, why_not(address, options.port)) for address in options.addresses]
    for address, reason in found:
        if reason:
            print(f'teredo: {address}: {reason}', file=sys.stderr)
    return command.FOUND if any(reason for _, reason in found) else 0


if __name__ == '__main__':
    command.run(main)
