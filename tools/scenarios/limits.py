"""Threads, memory and file descriptors that the system refuses the server."""
import os

from scenarios.office import PAIRS, SECONDS, answered_call, end, speak, started
from scenarios.pace import slowed
from telephones.blocking import expect

# The program's exit status if it has too little memory or too few threads; and the statuses if the system doesn't even
# load the program.
NO_MEMORY, NOT_LOADED = 6, (1, 127, -9, -11)
PROCESSES = [f"--nproc={most}" for most in (1, 2, 3, 4)]
MEMORY = [f"--as={most << 20}" for most in (6, 8, 12, 16, 24, 32, 48)]
# The exit status if no telephones can be served. Two workers need these descriptors: two sockets for each pair, one for
# SIP, one with which each worker and the signalling wait, the three standard streams, and one to spare.
NO_SOCKET, WORKERS = 5, 2
NEEDED = 2 * PAIRS + 1 + WORKERS + 1 + 3 + 1


def serve_within(program, limit):
    """If something is refused, the program ends with its status before it listens; else it carries a call."""
    # (no limit of processes applies to the superuser)
    as_nobody = ["setpriv", "--reuid=65534", "--regid=65534", "--clear-groups"] if os.geteuid() == 0 else []
    with started(program, workers=8, limits=[*as_nobody, "prlimit", limit]) as office:
        if office.process.stdout.readline():
            call = answered_call(*office.telephones())
            speak(call)
            end(call)
            return
        status = office.process.wait(slowed(SECONDS))
        # (below some limit the system doesn't even load the program)
        expect(status == NO_MEMORY or (status in NOT_LOADED and "--as" in limit), f"status {status}")


def serve_with_descriptors(program, most):
    """If the process may have too few descriptors, the program says how many it needs; else it carries a call."""
    with started(program, workers=WORKERS, limits=["prlimit", f"--nofile={most}"]) as office:
        if most < NEEDED:
            status = office.process.wait(slowed(SECONDS))
            told = ["office: socket", f"fd limit {most}, {NEEDED} are needed"]
            expect((status, office.lines()) == (NO_SOCKET, told), f"status {status}, {office.lines()}")
            return
        expect(office.listens(), "it doesn't listen")
        call = answered_call(*office.telephones())
        speak(call)
        end(call)
