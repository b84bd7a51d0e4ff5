#!/usr/bin/env python3
"""record.py DEVICE FILE: writes the IPv4 packets that go by at a network device into a new capture, until it is ended.

The capture is classic pcap of raw IP, as `audit` and `explain` read it. It wants Linux and root. The file has its head as soon
as packets are taken.
"""
import os
import socket
import struct
import sys
import time

sys.dont_write_bytecode = True

HERE = os.path.dirname(os.path.abspath(__file__))
sys.path.insert(0, os.path.join(HERE, '..', 'tools'))

import capture
import command

EVERY_PROTOCOL = 3  # ETH_P_ALL: what goes out, too
IPV4 = 0x0800


def record(device, file):
    # SOCK_DGRAM takes the link's own header off.
    with socket.socket(socket.AF_PACKET, socket.SOCK_DGRAM, socket.htons(EVERY_PROTOCOL)) as taken:
        taken.bind((device, EVERY_PROTOCOL))
        file.write(capture.HEAD)
        while True:
            data, (_, protocol, *_) = taken.recvfrom(capture.SNAP)
            if protocol == IPV4:
                seconds, fraction = divmod(time.time_ns(), 10 ** 9)
                file.write(struct.pack('<IIII', seconds, fraction, len(data), len(data)) + data)


def main():
    parser = command.words(__doc__)
    parser.add_argument('device', metavar='DEVICE')
    parser.add_argument('file', metavar='FILE')
    options = parser.parse_args()
    try:
        with open(options.file, 'xb', buffering=0) as file:
            record(options.device, file)
    except OSError as fault:
        raise command.Refusal(f'{options.device}, {options.file}: {fault.strerror}', command.UNREADABLE) from None


if __name__ == '__main__':
    command.run(main)
