"""How much slower this computer is than an idle one, measured by exchanges between two processes, and how long to wait
then."""
import multiprocessing
import time

from telephones.messages import Dialog, Identity, headers

# Requests that each process reads and writes in an exchange; the exchanges; and the seconds that all take on an idle
# computer. There is a pause before each exchange, so that both processes must be woken.
REQUESTS, EXCHANGES, IDLE = 20, 30, 0.06
PAUSE = 0.005

factor = 1.0


def read_and_write():
    """The work of a telephone."""
    identity = Identity("100", "office.example", "127.0.0.1", 5060)
    for number in range(REQUESTS):
        request = identity.request("OPTIONS", "sip:office.example", Dialog("1", "1", identity.address), number, "1")
        for name in ("Via", "From", "To", "Call-ID", "CSeq", "Contact"):
            headers(request, name)


def answer(line):
    for _ in range(EXCHANGES):
        line.recv_bytes()
        read_and_write()
        line.send_bytes(b"done")


def exchange(line):
    """Both processes work in turn. Returns the seconds that this takes."""
    begun = time.monotonic()
    line.send_bytes(b"begin")
    line.recv_bytes()
    read_and_write()
    return time.monotonic() - begun


def measured():
    """How many times longer the exchanges take than on an idle computer."""
    own, others = multiprocessing.Pipe()
    other = multiprocessing.Process(target=answer, args=(others,))
    other.start()
    took = 0
    for _ in range(EXCHANGES):
        time.sleep(PAUSE)
        took += exchange(own)
    other.join()
    return max(1.0, took / IDLE)


def measure(least=1.0):
    """Sets the factor by which this process waits longer, at least this one."""
    global factor
    factor = max(least, measured())
    return factor


def slowed(seconds):
    """This many seconds of an idle computer."""
    return seconds * factor


def becomes(holds, seconds):
    """Returns whether something becomes true within this many seconds of an idle computer."""
    end = time.monotonic() + slowed(seconds)
    while time.monotonic() < end:
        if holds():
            return True
        time.sleep(0.05)
    return bool(holds())
