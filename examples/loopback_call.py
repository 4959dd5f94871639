#!/usr/bin/env python3
"""Two telephones on this computer: both register, one calls the other, each hears the other, one hangs up, and both leave.

usage: loopback_call.py [SERVER_IP [SIP_PORT [SECONDS]]]      as in examples/office.toml: 127.0.0.1 5060; and how long both talk, or 0

Each step is printed as it succeeds; the exit status is 1 where one does not. tools/telephones/blocking.py has the messages
of a telephone."""
import pathlib
import sys
import time

sys.path.insert(0, str(pathlib.Path(__file__).resolve().parent.parent / "tools"))

from telephones.blocking import Call, Failed, Telephone

SERVER = (sys.argv[1] if len(sys.argv) > 1 else "127.0.0.1", int(sys.argv[2]) if len(sys.argv) > 2 else 5060)
DOMAIN = "office.example"
SECONDS = float(sys.argv[3]) if len(sys.argv) > 3 else 0
TIMEOUT = 2


def step(name, holds):
    print(f"{name}: {'ok' if holds else 'FAILED'}", flush=True)
    if not holds:
        sys.exit(1)


def is_heard(call, speaker, payload):
    """Whether the other end hears what a telephone says."""
    try:
        call.hears(speaker, payload)
        return True
    except Failed:
        return False


def talk(call):
    """Both send media, fifty datagrams a second."""
    end = time.monotonic() + SECONDS
    while time.monotonic() < end:
        call.speak(call.caller, b"talk" * 40)
        call.speak(call.callee, b"talk" * 40)
        time.sleep(0.02)


def main():
    caller, callee = (Telephone(user, DOMAIN, SERVER, SERVER[0], TIMEOUT) for user in ("100", "101"))
    for telephone in (caller, callee):
        step(f"{telephone.user} registers", telephone.is_bound(3600))
    call = Call(caller, callee)
    call.dial()
    call.ring()
    step("it rings", True)
    call.answer()
    step("it is answered", True)
    step("101 hears 100", is_heard(call, caller, b"from 100" * 20))
    step("100 hears 101", is_heard(call, callee, b"from 101" * 20))
    talk(call)
    call.hang_up()
    step("it is over", True)
    for telephone in (caller, callee):
        step(f"{telephone.user} leaves", not telephone.is_bound(0))


if __name__ == "__main__":
    main()
