"""A telephone that retransmits and answers again as RFC 3261 says (sections 13 and 17), one call at a time."""
from telephones.descriptions import audio, describe
from telephones.messages import Dialog, Identity, key_of, status_of

T1, T2, WHOLE = 0.5, 4.0, 32.0
# After this many seconds nothing of a transaction is retransmitted.
FORGOTTEN = 40


class Asked:
    """A request of the telephone's own: it is retransmitted until a response comes, and given up after 32 seconds."""

    def __init__(self, telephone, text, took, gave_up):
        self.telephone, self.text, self.took, self.gave_up = telephone, text, took, gave_up
        self.key, self.is_over, self.moment = key_of(text), False, telephone.loop.now()
        self.stop_again = self.stop_whole = lambda: None
        telephone.asked[self.key] = self
        self.stop_whole = telephone.loop.after(WHOLE, self.end)
        self.send(T1)

    def send(self, interval):
        self.telephone.put(self.text)
        is_invite = self.key[1] == "INVITE"
        later = 2 * interval if is_invite else min(2 * interval, T2)
        self.stop_again = self.telephone.loop.after(interval, lambda: self.is_over or self.send(later))

    def take(self, response):
        status = status_of(response)
        if self.is_over:
            if self.key[1] == "INVITE" and status >= 200:
                self.took(response)
            return
        if status < 200:
            # A request that is no INVITE is still retransmitted (section 17.1.2.2).
            if self.key[1] == "INVITE":
                self.stop_again()
                self.stop_whole()
            self.took(response)
            return
        self.stop()
        self.took(response)

    def stop(self):
        self.is_over = True
        self.stop_again()
        self.stop_whole()

    def end(self):
        if not self.is_over:
            self.is_over = True
            self.stop_again()
            self.gave_up(self)


class Telephone:
    def __init__(self, loop, line, fate, user, server, domain, ip):
        self.loop, self.line, self.fate = loop, line, fate
        self.user, self.server, self.domain, self.ip = user, server, domain, ip
        self.sip, self.media = loop.open(ip, self.come), loop.open(ip, lambda data: self.hears(data))
        self.port, self.media_port = self.sip.number, self.media.number
        self.identity = Identity(user, domain, ip, self.port)
        self.asked, self.said, self.number, self.version, self.is_off = {}, {}, 0, 0, False
        # What takes a request that is no repeat; and what gets the media.
        self.takes = lambda request: None
        self.hears = lambda data: None

    # ---- the line

    def put(self, text):
        data = text.encode()
        if not self.is_off:
            self.line.out(key_of(text), lambda: self.sip.send(data, self.server))

    def come(self, data):
        text = data.decode(errors="replace")
        key = key_of(text)
        self.line.back(key, lambda: self.is_off or self.take(text, key))

    # ---- messages

    def take(self, text, key):
        if status_of(text):
            asked = self.asked.get(key)
            if asked:
                asked.take(text)
            return
        said = self.said.get(key)
        if not said:
            self.say(key, "")
            self.takes(text)
        elif said[0]:
            # (until it is answered, a repeat is skipped)
            self.put(said[0])

    def ask(self, method, uri, dialog, number, took, gave_up, body="", branch="", further=()):
        return Asked(self, self.request(method, uri, dialog, number, body, branch, further), took, gave_up)

    def request(self, method, uri, dialog, number, body="", branch="", further=()):
        """A request with this branch, or else with its own."""
        return self.identity.request(method, uri, dialog, number, branch or f"z9hG4bK{self.fate.getrandbits(60):x}", body, further)

    def respond(self, request, status, tag, body=""):
        """Responds, and does so again if the request comes again."""
        text = self.identity.response(request, status, tag, body)
        self.say(key_of(request), text)
        self.put(text)

    def say(self, key, text):
        self.said[key] = text, self.loop.now()

    def description(self, direction="sendrecv"):
        self.version += 1
        return describe(self.ip, self.port, self.version, audio(self.media_port, direction))

    def register(self, took, gave_up):
        self.number += 1
        dialog = Dialog(f"r{self.port}", f"r{self.user}", self.identity.address)
        return self.ask("REGISTER", f"sip:{self.domain}", dialog, self.number, took, gave_up, further=["Expires: 3600"])

    def lose_power(self):
        """It sends nothing and takes nothing, and forgets everything."""
        self.is_off = True
        for it in self.asked.values():
            it.stop()
        self.asked, self.said = {}, {}

    def forget(self):
        """Forgets the transactions of which nothing comes again."""
        since = self.loop.now() - FORGOTTEN
        self.asked = {key: it for key, it in self.asked.items() if it.moment > since}
        self.said = {key: it for key, it in self.said.items() if it[1] > since}
        self.line.keep(self.asked.keys() | self.said.keys())
