"""Calls in which an end sends nothing, or neither does."""
import select
import time

from scenarios.office import IP, OVER, USERS, answered_call, end, serving
from scenarios.pace import slowed
from telephones.blocking import expect

# Seconds: in which the log names an end that is silent for ten; between the words of the other end; and in which a call
# is ended after a minute of silence: the server looks once a second.
SILENT, BETWEEN, HUNG_UP = 13, 0.5, (59.9, 63)


def two_calls(office):
    phones = office.telephones(USERS[:4])
    return answered_call(*phones[:2]), answered_call(*phones[2:])


def tell_of_silence(program):
    """In one call the callee sends nothing; in another, a held one, neither end does."""
    with serving(program, workers=2) as office:
        def silent_ways():
            return [line for line in office.lines() if line.startswith("call-silent-way")]

        call, held = two_calls(office)
        held.offer("inactive", "inactive")
        begun = time.monotonic()
        while (waited := time.monotonic() - begun) < SILENT or (not silent_ways() and waited < slowed(SILENT)):
            call.hears(call.caller, b"a word")
            time.sleep(BETWEEN)
        port = call.callee.media[0].getsockname()[1]
        line = f"call-silent-way call=1 from={call.callee.user} expected={IP}:{port}"
        expect(silent_ways() == [line], f"silent ways are {silent_ways()}")
        end(call)
        end(held)


def hang_up_silence(program):
    """In one call nothing is sent after a word, in another only reports: the first is ended at both ends after the
    configured minute."""
    with serving(program, 2, "silent_minutes = 1\n") as office:
        silent, reported = two_calls(office)
        said = silent.hears(silent.caller, b"a word")
        until = time.monotonic() + slowed(HUNG_UP[1])
        while not select.select([silent.caller.sip], [], [], 1)[0] and time.monotonic() < until:
            reported.speak(reported.caller, b"a report", above=1)
        byes = [(phone, phone.take("BYE"), phone.came) for phone in (silent.caller, silent.callee)]
        waited = byes[0][2] - said
        expect(HUNG_UP[0] <= waited <= slowed(HUNG_UP[1]), f"a silent call is ended after {waited:.3f} s")
        for phone, bye, _ in byes:
            phone.respond(bye, 200)
        expect_no_more(silent, reported)
        end(reported)


def expect_no_more(silent, reported):
    """Nothing is passed on in a call that has ended, and the other continues."""
    silent.speak(silent.caller, b"after the end")
    ports = [*silent.callee.media, *(phone.sip for call in (silent, reported) for phone in (call.caller, call.callee))]
    expect(not select.select(ports, [], [], slowed(OVER))[0], "no more of a silent call, and no BYE where reports come")
    while select.select([reported.callee.media[1]], [], [], 0)[0]:
        reported.callee.media[1].recv(65536)
