"""What two telephones do with each other, and what must be seen of it at the server's interface."""
import time

from telephones.audio import loudness, samples
from telephones.network import SERVER

PATIENCE = 6
# On a bad line.
LONG = 30


class Failed(Exception):
    """What was not seen."""


class Stage:
    """Two telephones, and what is seen of them."""

    def __init__(self, watch, caller, callee, third=None):
        self.watch, self.caller, self.callee, self.third = watch, caller, callee, third

    def sip(self, start, text, source=None, target=None, seconds=PATIENCE, method=None):
        """A message whose first line begins with this, from this telephone or to it."""
        def wanted(packet):
            return (packet.is_sip() and packet.first_line().startswith(text) and (not source or packet.source == source.address)
                    and (not target or packet.target == target.address) and (not method or packet.header("CSeq").endswith(method)))
        found = self.watch.wait(start, wanted, seconds)
        if not found:
            who = f" from {source.user}" if source else f" to {target.user}" if target else ""
            raise Failed(f"no {text}{f' ({method})' if method else ''}{who}")
        return found

    def heard(self, phone, other, seconds=1.5):
        """How much of what reaches a telephone is the other's tone, and how many packets reach it."""
        start = self.watch.here()
        time.sleep(seconds)
        bodies = [it.body for it in self.watch.since(start) if it.target == phone.address and it.source == SERVER and it.is_rtp()]
        return loudness(samples(bodies), other.tone), len(bodies)

    def hear_each_other(self, seconds=4):
        """Each end gets the other's tone."""
        end = time.time() + seconds
        for phone, other in ((self.caller, self.callee), (self.callee, self.caller)):
            while not other.is_mute:
                share, count = self.heard(phone, other)
                if share > 0.5:
                    break
                if time.time() > end:
                    raise Failed(f"{phone.user} hears {share:.0%} of {other.user}'s tone in {count} packets")

    def pass_media(self):
        """Packets reach each end, whatever they carry."""
        for phone, other in ((self.caller, self.callee), (self.callee, self.caller)):
            if other.is_mute:
                continue
            count = self.heard(phone, other)[1]
            if count < 20:
                raise Failed(f"{count} packets reach {phone.user} in 1.5 s")

    # ---- steps

    def register(self):
        """Both register. One that doesn't, such as twinkle at some starts, is started again."""
        for phone in (self.caller, self.callee):
            try:
                self.sip(0, "SIP/2.0 200", target=phone, method="REGISTER")
            except Failed:
                phone.end()
                phone.start()
                self.sip(0, "SIP/2.0 200", target=phone, method="REGISTER", seconds=20)

    def ring(self):
        start = self.watch.here()
        self.caller.dial(self.callee.user)
        self.sip(start, "INVITE ", source=self.caller)
        self.sip(start, "INVITE ", target=self.callee)
        self.sip(start, "SIP/2.0 18", target=self.caller, method="INVITE")
        return start

    def call(self):
        start = self.ring()
        time.sleep(0.3)
        self.callee.answer()
        self.sip(start, "SIP/2.0 200", target=self.caller, method="INVITE")
        self.sip(start, "ACK ", source=self.caller)
        time.sleep(0.5)

    def hang_up(self, phone):
        other = self.callee if phone is self.caller else self.caller
        start = self.watch.here()
        phone.hang_up()
        self.sip(start, "BYE ", source=phone)
        self.sip(start, "SIP/2.0 200", target=phone, method="BYE")
        self.sip(start, "BYE ", target=other)
        self.sip(start, "SIP/2.0 200", source=other, method="BYE")
        time.sleep(0.5)

    def offer_again(self, phone, do):
        """An end offers anew, and both ends learn of it."""
        other = self.callee if phone is self.caller else self.caller
        start = self.watch.here()
        do()
        self.sip(start, "INVITE ", source=phone)
        self.sip(start, "INVITE ", target=other)
        self.sip(start, "SIP/2.0 200", target=phone, method="INVITE")
        time.sleep(0.3)

    def hold_and_resume(self, phone):
        other = self.callee if phone is self.caller else self.caller
        self.offer_again(phone, phone.hold)
        time.sleep(0.5)
        share, count = self.heard(phone, other)
        if share > 0.2:
            raise Failed(f"{phone.user} hears {other.user} while it holds")
        self.offer_again(phone, phone.resume)
        self.hear_each_other()


# ---- scenes: each returns what was seen, or raises Failed


def plain_call(stage, by_caller):
    stage.call()
    stage.hear_each_other()
    stage.hang_up(stage.caller if by_caller else stage.callee)


def held_call(stage, by_caller):
    stage.call()
    stage.hear_each_other()
    stage.hold_and_resume(stage.caller if by_caller else stage.callee)
    stage.hang_up(stage.caller)


def given_up(stage):
    start = stage.ring()
    stage.caller.hang_up()
    stage.sip(start, "CANCEL ", target=stage.callee)
    stage.sip(start, "SIP/2.0 487", target=stage.caller)
    time.sleep(0.5)


def refused(stage):
    start = stage.ring()
    stage.callee.reject()
    final = stage.watch.wait(start, lambda it: it.is_sip() and it.source == stage.callee.address and it.first_line()[8:9] in "456" and it.header("CSeq").endswith("INVITE"), PATIENCE)
    if not final:
        raise Failed(f"no refusal from {stage.callee.user}")
    status = final.first_line()[8:11]
    stage.sip(start, f"SIP/2.0 {status}", target=stage.caller, method="INVITE")
    time.sleep(0.5)
    return status


def other_codec(stage):
    stage.call()
    stage.pass_media()
    stage.hang_up(stage.caller)


def gone(stage):
    start = stage.watch.here()
    stage.callee.leave()
    stage.sip(start, "REGISTER ", source=stage.callee)
    stage.sip(start, "SIP/2.0 200", target=stage.callee, method="REGISTER")
    stage.caller.dial(stage.callee.user)
    stage.sip(start, "SIP/2.0 480", target=stage.caller, method="INVITE")


# ---- scenes with the trial's own telephone, the caller

def held_by_no_address(stage):
    """The old way to hold (RFC 3264 section 8.4)."""
    plain, other = stage.caller, stage.callee
    stage.call()
    stage.hear_each_other()
    stage.offer_again(plain, lambda: plain.inside("INVITE", plain.description(address="0.0.0.0")))
    if stage.heard(plain, other)[1] > 5:
        raise Failed(f"{plain.user} hears {other.user} while it holds")
    stage.offer_again(plain, lambda: plain.inside("INVITE", plain.description()))
    stage.hear_each_other()
    stage.hang_up(plain)


def update(stage):
    stage.call()
    start = stage.watch.here()
    final = stage.caller.inside("UPDATE", stage.caller.description())
    stage.sip(start, "UPDATE ", target=stage.callee)
    if not final:
        raise Failed("no final response to the UPDATE")
    stage.hear_each_other()
    stage.hang_up(stage.caller)
    return final.split()[1] if final.split()[1] != "200" else None


def offered(stage, media):
    """An offer of these media, whose audio is heard."""
    start = stage.watch.here()
    stage.caller.dial(stage.callee.user, media)
    stage.sip(start, "SIP/2.0 18", target=stage.caller, method="INVITE")
    time.sleep(0.3)
    stage.callee.answer()
    stage.sip(start, "SIP/2.0 200", target=stage.caller, method="INVITE")
    time.sleep(0.5)
    stage.hear_each_other()
    stage.hang_up(stage.callee)


def second_call(stage):
    """A third telephone calls the callee, who is talking: it rings there, or is refused, and the call continues."""
    stage.call()
    start = stage.watch.here()
    stage.third.dial(stage.callee.user)
    said = stage.watch.wait(start, lambda it: it.is_sip() and it.target == stage.third.address and it.first_line()[8:11] in ("180", "183", "486", "600", "603"), PATIENCE)
    if not said:
        raise Failed("the third telephone learns nothing")
    status = said.first_line()[8:11]
    if status in ("180", "183"):
        stage.third.hang_up()
        stage.sip(start, "SIP/2.0 487", target=stage.third)
    stage.hear_each_other()
    stage.hang_up(stage.caller)
    return "rings" if status in ("180", "183") else status


def rough_calls(stage):
    """One of the two has a bad line: calls are made, both ends hear each other, and each end ends one."""
    for phone in (stage.caller, stage.callee):
        start = stage.watch.here()
        stage.caller.dial(stage.callee.user)
        stage.sip(start, "INVITE ", target=stage.callee, seconds=LONG)
        stage.sip(start, "SIP/2.0 18", source=stage.callee, seconds=LONG)
        time.sleep(1)
        stage.callee.answer()
        stage.sip(start, "SIP/2.0 200", target=stage.caller, method="INVITE", seconds=LONG)
        stage.sip(start, "ACK ", source=stage.caller, seconds=LONG)
        stage.sip(start, "ACK ", target=stage.callee, seconds=LONG)
        time.sleep(2)
        stage.hear_each_other()
        start = stage.watch.here()
        phone.hang_up()
        stage.sip(start, "BYE ", target=stage.callee if phone is stage.caller else stage.caller, seconds=LONG)
        time.sleep(5)


def unanswered(stage):
    """The callee rings until somebody gives up: the server after 180 s, if no telephone does before."""
    start, begun = stage.ring(), time.time()
    finals = ("SIP/2.0 4", "SIP/2.0 5", "SIP/2.0 6")
    final = stage.watch.wait(start, lambda it: it.is_sip() and it.target == stage.caller.address and it.first_line().startswith(finals), 190)
    if not final:
        raise Failed("no final response in 190 s")
    return f"{final.first_line()[8:11]} after {time.time() - begun:.0f} s"


def gone_silent(stage):
    """The callee vanishes: the caller gets 408, after the configured seconds."""
    stage.callee.end()
    start, begun = stage.watch.here(), time.time()
    stage.caller.dial(stage.callee.user)
    stage.sip(start, "SIP/2.0 408", target=stage.caller, method="INVITE", seconds=6)
    return f"408 after {time.time() - begun:.0f} s"
