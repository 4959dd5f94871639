"""Sockets of telephones, and ports of this computer for a server."""
import contextlib
import random
import socket
import struct

# Servers have the lower of these ports, telephones' media the upper ones: all are below those that the system gives to
# sockets that ask for none.
LOWEST, HIGHEST, BLOCK = 10_000, 22_000, 256
MEDIA = 22_000, 32_000
# The option by which Linux notes when a datagram arrives (SO_TIMESTAMPNS).
STAMPED, STAMP = 35, struct.Struct("qq")
LONGEST = 65_536


def udp(ip, port=0, timeout=None):
    """A UDP socket that notes when each datagram arrives."""
    made = socket.socket(socket.AF_INET, socket.SOCK_DGRAM)
    try:
        made.setsockopt(socket.SOL_SOCKET, STAMPED, 1)
        made.settimeout(timeout)
        made.bind((ip, port))
    except OSError:
        made.close()
        raise
    return made


def receive(from_socket):
    """The next datagram, its source, and the moment at which it arrived, in seconds, however late it is read."""
    data, notes, _, source = from_socket.recvmsg(LONGEST, socket.CMSG_SPACE(STAMP.size))
    seconds, nanoseconds = next(STAMP.unpack(note) for _, kind, note in notes if kind == STAMPED)
    return data, source, seconds + nanoseconds / 1e9


def media_pair(ip, timeout=None):
    """Sockets at an even port, for media, and at the one above, for their reports."""
    for _ in range(1_000):
        port = random.randrange(*MEDIA, 2)
        with contextlib.suppress(OSError), contextlib.ExitStack() as kept:
            pair = [kept.enter_context(udp(ip, each, timeout)) for each in (port, port + 1)]
            kept.pop_all()
            return pair
    raise OSError("no two ports are free")


def take(kept, ip, first, count):
    """Takes these ports, if they are free. A TCP socket at the first port of each block keeps others out until the
    server has opened its own."""
    for guard in range(first, first + count, BLOCK):
        kept.enter_context(socket.create_server((ip, guard)))
    with contextlib.ExitStack() as tried:
        for port in range(first, first + count):
            tried.enter_context(udp(ip, port))


@contextlib.contextmanager
def reserved(ip, count):
    """The first of this many free ports, none of which anyone else has reserved."""
    with contextlib.ExitStack() as kept:
        for _ in range(1_000):
            first = random.randrange(LOWEST, HIGHEST - count, BLOCK)
            try:
                with contextlib.ExitStack() as taken:
                    take(taken, ip, first, count)
                    kept.push(taken.pop_all())
                break
            except OSError:
                continue
        else:
            raise OSError(f"no {count} ports are free")
        yield first
