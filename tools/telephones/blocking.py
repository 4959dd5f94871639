"""Telephones that wait for each message, and a call between two of them."""
import random
import select

from telephones.descriptions import audio, describe, media_port
from telephones.messages import Dialog, Identity, header, key_of, method_of, padded, status_of
from telephones.ports import media_pair, receive, udp

MOST_PASSED_OVER = 100


class Failed(Exception):
    """A telephone did not see what it should."""


def expect(holds, what):
    if not holds:
        raise Failed(what)


class Telephone:
    """A user's telephone, which waits for each message until this many seconds have passed."""

    def __init__(self, user, domain, server, ip, timeout):
        self.user, self.domain, self.server = user, domain, server
        self.sip, self.media = udp(ip, timeout=timeout), media_pair(ip, timeout)
        self.port = self.sip.getsockname()[1]
        self.identity = Identity(user, domain, ip, self.port, asks_for_port=True)
        self.requests = self.versions = self.registrations = 0
        # The messages that it took, which the server retransmits if the telephone is late; and what it waits for.
        self.taken, self.wanted = set(), ""
        # The moment at which the last message arrived.
        self.came = 0.0

    def close(self):
        for each in (self.sip, *self.media):
            each.close()

    # ---- what it sends

    def send(self, text):
        self.sip.sendto(text.encode(), self.server)
        return text

    def description(self, direction="sendrecv"):
        self.versions += 1
        return describe(self.identity.ip, self.port, self.versions, audio(self.media[0].getsockname()[1], direction))

    def request(self, method, uri, call_id, to, number, body="", further=(), length=0):
        """Sends a request, of this length if one is given, and returns it."""
        self.requests += 1
        branch = f"z9hG4bK{self.port}.{self.requests}"
        dialog = Dialog(call_id, f"t{self.user}", to)
        request = self.identity.request(method, uri, dialog, number, branch, body, further)
        return self.send(padded(request, length) if length else request)

    def call(self, user, call_id, length=0):
        """Sends an INVITE to a user, and returns it."""
        uri = f"sip:{user}@{self.domain}"
        return self.request("INVITE", uri, call_id, f"<{uri}>", 1, self.description(), length=length)

    def respond(self, request, status, body=""):
        self.send(self.identity.response(request, status, f"c{self.user}", body))

    def acknowledge_refusal(self, invite, refusal):
        self.send(self.identity.refusal_ack(invite, refusal))

    # ---- what it takes

    def next(self):
        """The next message, whatever it is."""
        try:
            data, _, self.came = receive(self.sip)
        except TimeoutError as error:
            raise Failed(f"{self.user} waits in vain for {self.wanted}") from error
        return data.decode(errors="replace")

    def take(self, beginning, method=""):
        """The next message that begins with this and is of this method. Others are skipped, as is what was taken
        before."""
        self.wanted = " ".join([*beginning.split(), method]).strip()
        for _ in range(MOST_PASSED_OVER):
            message = self.next()
            is_wanted = message.startswith(beginning) and key_of(message)[1].endswith(method)
            if is_wanted and message not in self.taken:
                self.taken.add(message)
                return message
        raise Failed(f"{self.user} takes {self.wanted}")

    def take_again(self, request):
        """A request that was taken before comes again, and no new one of its method before it."""
        self.wanted = f"the same {method_of(request)} again"
        for _ in range(MOST_PASSED_OVER):
            message = self.next()
            if message == request:
                return
            is_other = message in self.taken or method_of(message) != method_of(request)
            expect(is_other, self.wanted)
        raise Failed(f"{self.user} takes {self.wanted}")

    def register(self, seconds=3600):
        """Asks for a binding that lasts this long, 0 for none, and returns the response."""
        self.registrations += 1
        uri, lines = f"sip:{self.domain}", [f"Expires: {seconds}"]
        self.request("REGISTER", uri, f"r{self.port}", self.identity.address, self.registrations, further=lines)
        return self.take("SIP/2.0 ", "REGISTER")

    def is_bound(self, seconds=3600):
        """Asks for a binding that lasts this long, 0 for none, and returns whether there is one then."""
        response = self.register(seconds)
        expect(status_of(response) == 200, f"{self.user} receives {response[8:11]} for its REGISTER")
        return self.identity.contact in response


class Call:
    """A call between two telephones: its steps, and the server's ports for their media."""

    def __init__(self, caller, callee):
        self.caller, self.callee, self.number = caller, callee, 1
        self.uri, self.call_id = f"sip:{callee.user}@{callee.domain}", f"c{caller.port}.{random.random()}"
        self.invite = self.to = ""
        self.ports = {}

    def dial(self, length=0):
        """The caller's INVITE, of this length if one is given, reaches the callee."""
        self.caller.call(self.callee.user, self.call_id, length)
        self.invite = self.callee.take("INVITE")

    def ring(self):
        self.callee.respond(self.invite, 180)
        self.caller.take("SIP/2.0 180")

    def answer(self):
        self.callee.respond(self.invite, 200, self.callee.description())
        answer = self.caller.take("SIP/2.0 200", "INVITE")
        self.to = header(answer, "To")
        self.acknowledge()
        self.ports = {self.caller: media_port(answer), self.callee: media_port(self.invite)}
        expect(all(self.ports.values()), "a description")

    def acknowledge(self):
        self.caller.request("ACK", self.uri, self.call_id, self.to, self.number)
        self.callee.take("ACK")

    def offer(self, direction, answered):
        """The caller offers another direction, which the callee answers."""
        self.number += 1
        self.caller.request("INVITE", self.uri, self.call_id, self.to, self.number, self.caller.description(direction))
        invite = self.callee.take("INVITE")
        expect(f"a={direction}" in invite, f"{direction} is offered")
        self.callee.respond(invite, 200, self.callee.description(answered))
        expect(f"a={answered}" in self.caller.take("SIP/2.0 200", "INVITE"), f"{answered} is answered")
        self.acknowledge()

    def hang_up(self):
        """The caller ends the call."""
        self.caller.request("BYE", self.uri, self.call_id, self.to, self.number + 1)
        self.callee.respond(self.callee.take("BYE"), 200)
        self.caller.take("SIP/2.0 200", "BYE")

    # ---- media

    def other(self, speaker):
        return self.callee if speaker is self.caller else self.caller

    def speak(self, speaker, payload, above=0):
        """A telephone sends this to the server's port for its media, or to the one above."""
        speaker.media[above].sendto(payload, (self.caller.server[0], self.ports[speaker] + above))

    def hears(self, speaker, payload):
        """The other end hears what a telephone says, at both ports, from the server's ports for that end. Returns the
        moment at which it arrived."""
        listener, came = self.other(speaker), 0.0
        for above in (0, 1):
            self.speak(speaker, payload, above)
            try:
                heard, source, came = receive(listener.media[above])
            except TimeoutError as error:
                raise Failed(f"{listener.user} waits in vain for {len(payload)} bytes of media") from error
            expect(heard == payload, f"{len(payload)} bytes unchanged")
            expected = self.caller.server[0], self.ports[listener] + above
            expect(source == expected, "media from the other end's own relay port")
        return came

    def is_over(self, seconds):
        """Whether nothing that either end sends is heard in this many seconds."""
        for speaker in (self.caller, self.callee):
            for above in (0, 1):
                self.speak(speaker, b"after the end", above)
        return not select.select([*self.caller.media, *self.callee.media], [], [], seconds)[0]
