"""What the checks of `serve` and of `qualify` share: addresses of their own on loopback, and receives that fail."""
import ctypes
import errno
import os
import struct

PORT = 3544
# The numbers of recvfrom, recvmsg and recvmmsg on the machines that are known, behind the word of each machine for filters.
RECEIVES = {'x86_64': (0xc000003e, (45, 47, 299)), 'aarch64': (0xc00000b7, (207, 212, 243))}


def address(case, last):
    """An address of a case, which no other case and no other run of this machine has."""
    me = os.getpid()
    return f'127.{64 + (me >> 8) % 128}.{me % 256}.{10 * case + last}'


def wanted(what, got, want):
    return [] if got == want else [f'{what} is {got!r}, wanted {want!r}']


def refuse_receives():
    """Lets each call of this process that receives fail with EIO: a filter of the kernel's, where the machine is known."""
    machine, calls = RECEIVES[os.uname().machine]
    code = [(0x20, 0, 0, 4), (0x15, 0, len(calls) + 1, machine), (0x20, 0, 0, 0)]
    code += [(0x15, len(calls) - at, 0, call) for at, call in enumerate(calls)]
    code += [(0x06, 0, 0, 0x7fff0000), (0x06, 0, 0, 0x00050000 | errno.EIO)]
    program = ctypes.create_string_buffer(b''.join(struct.pack('HBBI', *line) for line in code))
    libc = ctypes.CDLL(None, use_errno=True)
    head = struct.pack('HxxxxxxQ', len(code), ctypes.addressof(program))
    if libc.prctl(38, 1, 0, 0, 0) or libc.prctl(22, 2, ctypes.create_string_buffer(head), 0, 0):
        raise PermissionError(ctypes.get_errno(), 'no filter')
