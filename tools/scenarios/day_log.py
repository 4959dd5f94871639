"""The log of a day, and the notes that `replay` writes for the same datagrams."""
import re
import subprocess
import tempfile
import time

from scenarios.office import DOMAIN, IP, LOGGED, SECONDS, answered_call, end, serving
from scenarios.pace import becomes, slowed
from telephones.blocking import expect

# The first words of the log's lines: two registrations, a call that is held, resumed and ended, a refused one, and a
# request to nobody.
HELD = ["call-offered", "call-held", "call-offered", "call-resumed"]
WORDS = ["registered", "registered", "call-begun", "call-ringing", "call-answered", *HELD, "call-ended", "call-begun",
         "call-refused", "refused"]
# The datagrams of media in that call, the caller's first.
SPOKEN = (5, 3)


def keep_a_log(program):
    """Two users, a call that is held, resumed and ended, one that is refused, and a request to nobody."""
    with serving(program, 1, 'log = "all"\n') as office:
        def told():
            return [line for line in office.lines() if not line.startswith("office:")]

        spend_a_day(*office.telephones())
        # (an extra line would be written in this time, too)
        time.sleep(LOGGED)
        becomes(lambda: len(told()) >= len(WORDS), LOGGED)
        log, notes = told(), notes_of(replayed(program, office))
        is_same = without_seconds(without_media(log)) == without_seconds(notes)
        expect(is_same, f"the log is {log}, and the notes are {notes}")
        counted = f"media-from-caller={SPOKEN[0]} media-from-callee={SPOKEN[1]}"
        counts = [counted in line for line in log if line.startswith("call-ended")]
        expect(counts == [True], f"the counts of {log}")
        words = [line.split()[0] for line in log]
        expect(words == WORDS, f"the words of the log are {words}")


def spend_a_day(caller, callee):
    call = answered_call(caller, callee)
    for speaker in [caller] * SPOKEN[0] + [callee] * SPOKEN[1]:
        call.hears(speaker, b"a word")
    call.offer("sendonly", "recvonly")
    call.offer("sendrecv", "sendrecv")
    end(call)
    refuse_call(caller, callee)
    caller.request("OPTIONS", f"sip:{DOMAIN}", "o1", f"<sip:{DOMAIN}>", 1)
    caller.take("SIP/2.0 200", "OPTIONS")
    caller.call("nobody", "o2")
    caller.take("SIP/2.0 404", "INVITE")


def refuse_call(caller, callee):
    invite = caller.call(callee.user, f"n{caller.port}")
    callee.respond(callee.take("INVITE"), 486)
    callee.take("ACK")
    caller.acknowledge_refusal(invite, caller.take("SIP/2.0 486", "INVITE"))


def script_of(day):
    """What the telephones sent, as events that `replay` reads."""
    begun = day[0].moment
    heads = [f"D {int(1000 * (sent.moment - begun))} {sent.salt} {IP} {sent.port} {len(sent.data)}\n" for sent in day]
    return b"".join(head.encode() + sent.data + b"\n" for head, sent in zip(heads, day))


def replayed(program, office):
    """What `replay --notes` writes for what the telephones sent."""
    with tempfile.NamedTemporaryFile() as script:
        script.write(script_of(office.day))
        script.flush()
        words = [program, "replay", "--notes", "--config", office.config, script.name]
        return subprocess.run(words, capture_output=True, check=False, timeout=slowed(SECONDS)).stdout


def notes_of(text):
    """The lines of `replay --notes`, except what is sent, and what is at the end."""
    notes = []
    while text:
        line, _, text = text.partition(b"\n")
        if line.startswith(b"S "):
            text = text[int(line.split()[3]) + 1:]
        elif not line.startswith((b"call ", b"hop ")):
            notes.append(line.decode())
    return notes


def without_seconds(lines):
    return [re.sub(r"=\d+\.\ds", "=s", line) for line in lines]


def without_media(lines):
    return [re.sub(r" media-from-[a-z]+=\d+", "", line) for line in lines]
