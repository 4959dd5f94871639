"""Calls that servers of one or more workers carry."""
import time

from scenarios import start
from scenarios.office import USERS, answered_call, end, serving, speak
from scenarios.pace import slowed
from telephones.blocking import Call, expect

LENGTHS = (0, 6_000, 16_384)
# Seconds in which an INVITE is retransmitted (RFC 3261, timer A): about half a second, as the system wakes the program.
AGAIN = (0.4, 1.4)


def carry_calls(program, workers):
    """A call that is held and resumed, calls with long INVITEs, calls at once, and one whose callee answers late."""
    with serving(program, workers) as office:
        phones = office.telephones(USERS)
        caller, callee = phones[:2]
        hold_and_resume(caller, callee)
        for length in LENGTHS:
            call = answered_call(callee, caller, length)
            speak(call)
            end(call)
        call_at_once(phones)
        answer_late(caller, callee)
        are_of_key = start.are_of_key(office.salts, office.since, office.until)
        expect(are_of_key, "tokens drawn from the configured key, from the microsecond of the start on")


def hold_and_resume(caller, callee):
    call = answered_call(caller, callee)
    speak(call)
    call.offer("sendonly", "recvonly")
    call.offer("sendrecv", "sendrecv")
    speak(call)
    end(call)


def call_at_once(phones):
    """A call between each two telephones, all at once."""
    calls = [answered_call(*pair) for pair in zip(phones[::2], phones[1::2])]
    for call in calls:
        speak(call)
    for call in calls:
        end(call)


def answer_late(caller, callee):
    """The callee doesn't answer yet, so the INVITE is retransmitted. The server may be late with the first INVITE, but
    not early with the second: its timer starts after the caller has sent its own."""
    call = Call(caller, callee)
    begun = time.time()
    call.dial()
    came = callee.came
    callee.take_again(call.invite)
    since_dialled, waited = callee.came - begun, callee.came - came
    is_in_time = since_dialled >= AGAIN[0] and waited <= slowed(AGAIN[1])
    seconds = f"{waited:.3f} s, and {since_dialled:.3f} s after the caller's"
    expect(is_in_time, f"an INVITE again after half a second, not {seconds}")
    call.ring()
    call.answer()
    end(call)
