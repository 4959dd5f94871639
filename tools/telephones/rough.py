"""A telephone with a bad line: a fifth of its SIP datagrams is lost each way, a fifth is doubled, and all are late. It
retransmits as RFC 3261 says."""
import random
import threading

from telephones.messages import handshake_of, key_of, status_of
from telephones.plain import Plain

LOST, DOUBLED, LATEST = 0.2, 0.2, 0.3
T1, MOST = 0.5, 4.0


class Rough(Plain):
    kind = "rough"

    def start(self):
        self.fate = random.Random(self.user)
        self.repeats, self.said, self.acks, self.seen = {}, {}, {}, set()
        super().start()

    def wait(self, start, pattern, seconds=30):
        return super().wait(start, pattern, max(seconds, 30))

    # ---- the line

    def suffer(self, carry):
        """What the line makes of a datagram: it may be lost, it may come twice, and it comes late."""
        if self.fate.random() < LOST:
            return
        for _ in range(2 if self.fate.random() < DOUBLED else 1):
            threading.Timer(self.fate.random() * LATEST, lambda: self.runs and carry()).start()

    def put(self, text):
        self.suffer(lambda: Plain.send(self, text))

    def take(self, text):
        """What reaches the line; what comes out of it is taken, and noted for anyone who waits."""
        self.suffer(lambda: self.take_late(text))

    # ---- what is retransmitted

    def repeat(self, key, text, interval=T1, left=64 * T1):
        self.put(text)
        if left > 0 and self.runs:
            again = lambda: key in self.repeats and self.repeat(key, text, min(2 * interval, MOST), left - interval)
            self.repeats[key] = threading.Timer(interval, again)
            self.repeats[key].start()

    def stop(self, key):
        timer = self.repeats.pop(key, None)
        if timer:
            timer.cancel()

    def send(self, text):
        """A request is retransmitted until it is answered, an INVITE's final response until its ACK comes."""
        status = status_of(text)
        if text.startswith("ACK "):
            self.acks[handshake_of(text)] = text
            self.put(text)
        elif not status:
            self.repeat(key_of(text), text)
        else:
            self.said[key_of(text)] = text
            if status >= 200 and key_of(text)[1] == "INVITE":
                self.repeat(handshake_of(text), text)
            else:
                self.put(text)

    def take_late(self, text):
        key = key_of(text)
        if text.startswith("ACK "):
            self.stop(handshake_of(text))
        elif text.startswith("SIP/2.0"):
            if text[8] != "1" or key[1] == "INVITE":
                self.stop(key)
            if text in self.seen:
                if handshake_of(text) in self.acks and key[1] == "INVITE" and text[8] != "1":
                    self.put(self.acks[handshake_of(text)])
                return
            self.seen.add(text)
        elif key in self.said:
            self.put(self.said[key])
            return
        Plain.take(self, text)
