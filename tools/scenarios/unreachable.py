"""Telephones that the server can't reach, or that say nothing."""
import time

from scenarios.office import LOGGED, USERS, end, register, serving, speak
from scenarios.pace import becomes, slowed
from scenarios.workers import AGAIN
from telephones.blocking import Call, expect

# To the whole network, to which a socket may not send unless it asks for that.
NOWHERE = "255.255.255.255:9"
# Seconds after which the server is configured to give up a telephone that says nothing; and in which it does: it counts
# whole milliseconds.
GIVEN_UP, WITHIN = 2, (1.9, 2.9)


def tell_of_refusal(program):
    """A callee registers with an address to which the system refuses to send. The server says so once, however often it
    sends the INVITE."""
    with serving(program, workers=1) as office:
        def refusals():
            beginning = f"office: trouble: sending to {NOWHERE} is refused: "
            return [line for line in office.lines() if line.startswith(beginning)]

        caller, callee = (office.telephone(user) for user in USERS[:2])
        callee.identity.contact = f"<sip:{callee.user}@{NOWHERE}>"
        register(caller)
        register(callee)
        caller.call(callee.user, f"c{caller.port}")
        caller.take("SIP/2.0 100", "INVITE")
        time.sleep(slowed(AGAIN[1]))
        becomes(refusals, LOGGED)
        expect(len(refusals()) == 1, f"a refusal is reported once, not {len(refusals())} times")


def give_up_in_time(program):
    """A telephone that says nothing is given up after the configured seconds; one that rings is not."""
    with serving(program, 1, f"answer_within = {GIVEN_UP}\n") as office:
        caller, callee = office.telephones()
        begun = time.time()
        caller.call(callee.user, "g1")
        callee.take("INVITE")
        caller.take("SIP/2.0 408", "INVITE")
        waited = caller.came - begun
        expect(WITHIN[0] <= waited <= slowed(WITHIN[1]), f"408 after {waited:.3f} s")
        call = Call(caller, callee)
        call.dial()
        call.ring()
        time.sleep(GIVEN_UP + 1)
        call.answer()
        speak(call)
        end(call)
