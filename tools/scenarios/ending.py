"""Servers that end by themselves, and what their logs have by then."""
import contextlib
import os
import time

from scenarios.office import IP, PAIRS, SECONDS, USERS, answered_call, end, speak, started
from scenarios.pace import slowed
from scenarios.refused_calls import refuse_receiving
from telephones.blocking import Failed, expect
from telephones.ports import udp

# Turns after which a server ends: some that take a few moments, while REGISTERs come without a pause, and a few.
BUSY, FEW = 100, 5
# Seconds in which a response comes, and in which a server ends whose standard error nobody reads.
SOON, ENDED = 0.5, 2
# The exit status where receiving fails; and how often it has to fail in a row, which takes as many datagrams.
NO_SOCKET, FAILURES = 5, 100
# The example's key, of which a start warns.
EXAMPLES_KEY = "0" * 64


def keep_last_lines(program):
    """The log of a server that ends has a line for each REGISTER that was answered, to the last."""
    with started(program, workers=1, turns=BUSY) as office:
        expect(office.listens(), "it listens")
        telephone = office.telephone(USERS[0])
        telephone.sip.settimeout(slowed(SOON))
        answered = 0
        with contextlib.suppress(Failed):
            while office.process.poll() is None:
                telephone.register()
                answered += 1
        status = office.process.wait(slowed(SECONDS))
        lines = [line for line in office.lines() if line.startswith("registered ")]
        # (the response to the last may be lost with the server)
        is_whole = answered and len(lines) - answered in (0, 1)
        expect(is_whole and status == 0, f"status {status}, {answered} responses and {len(lines)} lines")


@contextlib.contextmanager
def full_pipe():
    """The end of a pipe to which nothing more can be written, and which nobody reads."""
    reading, writing = os.pipe()
    try:
        os.set_blocking(writing, False)
        with contextlib.suppress(BlockingIOError):
            while True:
                os.write(writing, b"." * 4_096)
        os.set_blocking(writing, True)
        yield writing
    finally:
        os.close(reading)
        os.close(writing)


def end_unread(program):
    """A server that has something to say at its start and its end starts and ends where nobody reads its standard
    error."""
    with full_pipe() as error, started(program, workers=1, turns=FEW, error=error, key=EXAMPLES_KEY) as office:
        expect(office.listens(), "it listens")
        begun = time.monotonic()
        status = office.process.wait(slowed(SECONDS))
        took = time.monotonic() - begun
        expect(status == 0 and took < slowed(ENDED), f"status {status} after {took:.1f} s")


def end_without_media(program):
    """A server ends where the system refuses to receive at the ports of the relay, so that another may take its place."""
    with started(program, workers=1, prepare=refuse_receiving) as office:
        expect(office.listens(), "it listens")
        with contextlib.closing(udp(IP)) as sender:
            deadline = time.monotonic() + slowed(SECONDS)
            while office.process.poll() is None and time.monotonic() < deadline:
                for at in range(2 * PAIRS):
                    sender.sendto(b"a word", (IP, office.where[1] + 2 + at))
                time.sleep(SOON / 50)
        status = office.process.poll()
        expect(status == NO_SOCKET, f"status {status}")


def log_nothing(program):
    """At the level that logs nothing, neither a call nor a refusal nor a datagram of a stranger has a line."""
    with started(program, workers=1, further='log = "none"\n') as office:
        expect(office.listens(), "it listens")
        caller, callee = office.telephones()
        stranger = office.telephone("nobody")
        stranger.register()
        stranger.send("no message")
        call = answered_call(caller, callee)
        speak(call)
        end(call)
        office.process.terminate()
        office.process.wait(slowed(SECONDS))
        expect(office.lines() == [], f"the log has {office.lines()}")
