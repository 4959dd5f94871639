"""Random calls of many kinds between two telephones: how each goes, and why one fails."""
from telephones.descriptions import media_port
from telephones.messages import Dialog, contact_of, header, key_of, method_of, number_of, status_of
from telephones.talking import T1, T2, WHOLE

KINDS = ("talked", "held", "busy", "declined", "cancelled")
# In one of this many calls both telephones lose power, for these seconds: by then the server has hung up, and heard
# nothing.
VANISHES, IS_OFF = 50, 100
REFUSALS = {"busy": 486, "declined": 603}
# For how many seconds an end rings, talks and holds at most; and how often it speaks.
RINGS, TALKS, HOLDS, SPEAKS = 1.0, 2.0, 1.0, 4
# No call takes this many seconds, whatever the line loses.
STUCK = 300


class Leg:
    """What an end knows of its dialog: its own tag, the Call-ID, the number of its last request, and where the other
    end is."""

    def __init__(self, tag, call=""):
        self.tag, self.call, self.number = tag, call, 1
        self.to = self.contact = self.invite = ""
        # The server's port for its media; the numbers of INVITEs that the other end acknowledged; whether a CANCEL is
        # sent.
        self.hop, self.acknowledged, self.cancels = 0, set(), False

    def learn(self, to, message):
        self.to, self.contact, self.hop = to, contact_of(message), media_port(message)

    def dialog(self, to=""):
        """What its requests repeat, to this To if one is given."""
        return Dialog(self.call, self.tag, to or self.to)


class Conversation:
    """One call, from its INVITE until both ends know that it is over."""

    def __init__(self, loop, fate, number, caller, callee, over):
        self.loop, self.fate, self.number, self.over = loop, fate, number, over
        self.caller, self.callee = caller, callee
        self.kind = fate.choice(KINDS) if fate.randrange(VANISHES) else "vanished"
        self.word = f"call {number}".encode()
        self.fault, self.is_over, self.heard = "", False, set()
        self.left = {caller, callee}
        self.ends = {caller: Leg(f"a{number}", f"c{number}.{fate.getrandbits(40):x}"), callee: Leg(f"b{number}")}
        self.stop_answer = lambda: None
        for it in self.left:
            it.forget()
        self.stuck = loop.after(STUCK, self.give_up)
        callee.takes, caller.takes = self.called, self.told
        caller.hears = lambda data: self.hear(caller, data)
        callee.hears = lambda data: self.hear(callee, data)
        self.uri = f"sip:{callee.user}@{caller.domain}"
        dialog = self.ends[caller].dialog(f"<{self.uri}>")
        self.invite = caller.ask("INVITE", self.uri, dialog, 1, self.answered, self.unheard, caller.description())

    # ---- how it ends

    def leave(self, end):
        """This end knows that the call is over."""
        self.left.discard(end)
        if not self.left and not self.is_over:
            self.finish()

    def finish(self):
        self.is_over = True
        self.stop_answer()
        self.stuck()
        self.over(self)

    def fail(self, fault):
        self.fault = self.fault or fault
        self.left.clear()
        if not self.is_over:
            self.finish()

    def give_up(self):
        """An end doesn't learn that the call is over. The line is to blame if the end rings, and none of its responses
        passed, so that no CANCEL may come."""
        waiting = " and ".join(sorted("caller" if it is self.caller else "callee" for it in self.left))
        invite = self.ends[self.callee].invite
        is_unheard = invite and self.left == {self.callee} and not self.callee.line.passed[key_of(invite)]
        self.fail(f"{self.kind}, {waiting} there after {STUCK} s, {'the line' if is_unheard else 'the server'}'s")

    def unheard(self, asked):
        """No response came: the line's fault, or the server's."""
        whose = "the line's" if asked.telephone.line.is_to_blame(asked.key) else "the server's"
        self.fail(f"no response to {asked.key[1]}, {whose}")

    # ---- the caller

    def answered(self, response):
        """A response to the first INVITE, or its 2xx again."""
        status, end = status_of(response), self.ends[self.caller]
        if status < 200:
            if self.kind == "cancelled" and not end.cancels:
                end.cancels = True
                self.loop.after(self.fate.random() * RINGS, self.cancel)
            return
        if status >= 300:
            self.acknowledge_refusal(self.invite, response)
            self.refused(status)
            return
        is_first = not end.contact
        end.learn(header(response, "To"), response)
        self.acknowledge(self.caller, 1)
        if is_first:
            if self.kind not in ("talked", "held", "vanished"):
                self.fail(f"answered, though {self.kind}")
                return
            self.talk(self.caller)

    def refused(self, status):
        wanted = REFUSALS.get(self.kind, 487 if self.kind == "cancelled" else 0)
        if status != wanted and not self.fault:
            self.fail(f"{status} where {wanted or 200} is due")
        self.leave(self.caller)

    def cancel(self):
        if self.invite.is_over or self.is_over:
            return
        dialog = self.ends[self.caller].dialog(f"<{self.uri}>")
        self.caller.ask("CANCEL", self.uri, dialog, 1, lambda response: None, self.unheard, branch=self.invite.key[0])

    @staticmethod
    def acknowledge_refusal(asked, response):
        asked.telephone.put(asked.telephone.identity.refusal_ack(asked.text, response))

    def acknowledge(self, telephone, number):
        end = self.ends[telephone]
        telephone.put(telephone.request("ACK", end.contact, end.dialog(), number))

    # ---- the callee

    def called(self, request):
        """A request that came to the callee."""
        method, call = method_of(request), self.ends[self.callee].call
        if method == "INVITE" and not call and ";tag=" not in header(request, "To"):
            self.ring(request)
        elif header(request, "Call-ID") != call:
            self.disown(self.callee, request)
        elif method == "CANCEL":
            self.callee.respond(request, 200, self.ends[self.callee].tag)
            if self.kind == "cancelled":
                self.refuse(487)
        else:
            self.take_inside(self.callee, request)

    def ring(self, request):
        end = self.ends[self.callee]
        end.call, end.invite = header(request, "Call-ID"), request
        end.learn(header(request, "From"), request)
        self.callee.respond(request, 180, end.tag)
        if self.kind != "cancelled":
            self.stop_answer = self.loop.after(self.fate.random() * RINGS, self.answer)

    def answer(self):
        if self.kind in REFUSALS:
            self.refuse(REFUSALS[self.kind])
        else:
            self.accept(self.callee, self.ends[self.callee].invite, self.callee.description())
            self.speak(self.callee)

    def refuse(self, status):
        end = self.ends[self.callee]
        self.callee.respond(end.invite, status, end.tag)
        self.repeat(self.callee, end.invite)
        self.leave(self.callee)

    def accept(self, telephone, invite, description):
        telephone.respond(invite, 200, self.ends[telephone].tag, description)
        self.repeat(telephone, invite)

    def repeat(self, telephone, invite, interval=T1, left=WHOLE):
        """A final response to an INVITE is retransmitted until its ACK comes (sections 13.3.1.4 and 17.2.1)."""

        def again():
            if number_of(invite) in self.ends[telephone].acknowledged or left <= 0:
                return
            said, _ = telephone.said.get(key_of(invite), ("", 0))
            if said:
                telephone.put(said)
                self.repeat(telephone, invite, min(2 * interval, T2), left - interval)

        self.loop.after(interval, again)

    # ---- both

    def told(self, request):
        """A request that came to the caller."""
        if header(request, "Call-ID") == self.ends[self.caller].call:
            self.take_inside(self.caller, request)
        else:
            self.disown(self.caller, request)

    @staticmethod
    def disown(telephone, request):
        """A request of another call."""
        if method_of(request) != "ACK":
            telephone.respond(request, 481, "none")

    def take_inside(self, telephone, request):
        method, end = method_of(request), self.ends[telephone]
        if method == "ACK":
            end.acknowledged.add(number_of(request))
        elif method == "BYE":
            telephone.respond(request, 200, end.tag)
            self.leave(telephone)
        elif method == "INVITE":
            end.hop = media_port(request)
            self.accept(telephone, request, telephone.description("recvonly" if "a=sendonly" in request else "sendrecv"))
        else:
            telephone.respond(request, 405, end.tag)

    def talk(self, telephone):
        """Both speak; then an end may hold; then an end hangs up, or both telephones lose power."""
        self.speak(telephone)
        if self.kind == "held":
            self.loop.after(self.fate.random() * TALKS, self.hold)
        elif self.kind == "vanished":
            self.loop.after(self.fate.random() * TALKS, self.vanish)
        else:
            self.loop.after(self.fate.random() * TALKS, self.hang_up)

    def speak(self, telephone, left=SPEAKS):
        hop = self.ends[telephone].hop
        if hop and not self.is_over and not telephone.is_off and left:
            telephone.media.send(self.word, (telephone.ip, hop))
            self.loop.after(0.2, lambda: self.speak(telephone, left - 1))

    def vanish(self):
        if self.is_over:
            return
        for it in (self.caller, self.callee):
            it.lose_power()
        self.loop.after(IS_OFF, self.come_back)

    def come_back(self):
        for it in (self.caller, self.callee):
            it.is_off = False
        self.finish()

    def hear(self, telephone, data):
        if data != self.word:
            self.fail(f"{telephone.user} hears {data!r} in {self.word!r}")
        self.heard.add(telephone)

    def hold(self):
        if self.is_over:
            return
        self.holder = self.fate.choice((self.caller, self.callee))
        self.reoffer("sendonly", lambda: self.loop.after(self.fate.random() * HOLDS, lambda: self.reoffer("sendrecv", self.hang_up)))

    def reoffer(self, way, then):
        """The end that holds offers again, and continues when that is answered."""
        if self.is_over:
            return
        telephone, end = self.holder, self.ends[self.holder]
        end.number += 1
        number, seen = end.number, []

        def took(response):
            status = status_of(response)
            if status < 200:
                return
            if status >= 300:
                self.acknowledge_refusal(asked, response)
                self.wait_or_fail(status, seen, way, then)
                return
            self.acknowledge(telephone, number)
            if not seen:
                seen.append(response)
                then()

        asked = telephone.ask("INVITE", end.contact, end.dialog(), number, took, self.unheard, telephone.description(way))

    def wait_or_fail(self, status, seen, way, then):
        """An offer that clashed is made again (section 14.1): the ACK of the last one was lost, for example."""
        if status not in (491, 500):
            self.fail(f"{status} to an offer of the call")
        elif not seen:
            seen.append(status)
            self.loop.after(2 + 2 * self.fate.random(), lambda: self.reoffer(way, then))

    def hang_up(self):
        if self.is_over:
            return
        telephone = self.fate.choice((self.caller, self.callee))
        end = self.ends[telephone]
        end.number += 1

        def took(response):
            status = status_of(response)
            if status > 200:
                self.fail(f"{status} to a BYE")
            elif status == 200:
                self.leave(telephone)

        telephone.ask("BYE", end.contact, end.dialog(), end.number, took, self.unheard)
