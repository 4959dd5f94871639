"""Telephones without sockets and without a clock: their moments come from a heap, and what they send are the events of
`PROGRAM follow`."""
import heapq
import itertools
import os
import re
import subprocess

from telephones.messages import handshake_of, key_of, status_of
from telephones.talking import T1, T2, WHOLE

# Milliseconds after an event at which a transaction may end, at which one that has rung for long is given up, and at
# which that is over, too.
FORGETS, RINGS = (5_001, 32_001), (180_001, 212_002)
# How often, in milliseconds, timers that were passed over are looked for, and how many each time.
SWEEPS, SWEPT = 600_000, 8
# A request that is answered at once, and forgotten, from its own place: once the program notes it, all that was sent
# before is carried out.
MARK = ("192.0.2.254", 9)
MARKED = f"source={MARK[0]}:{MARK[1]}".encode()
QUESTION = (f"OPTIONS sip:{MARK[0]} SIP/2.0\r\nVia: SIP/2.0/UDP {MARK[0]}:{MARK[1]}\r\nFrom: <sip:{MARK[0]}>;tag=1\r\nTo: <sip:{MARK[0]}>\r\n"
            "Call-ID: 1\r\nCSeq: 1 OPTIONS\r\nContent-Length: 0\r\n\r\n").encode()
FIRST_PORT = 10_000


class Program:
    """`PROGRAM follow`, which carries out events, and returns what was sent meanwhile, and its notes."""

    def __init__(self, program, config):
        self.run = subprocess.Popen([os.path.abspath(program), "follow", "--config", config, "--notes"], stdin=subprocess.PIPE, stdout=subprocess.PIPE, bufsize=0)
        self.into, self.out = self.run.stdin.fileno(), self.run.stdout.fileno()
        self.read, self.at = b"", 0

    def memory(self):
        """Resident kilobytes."""
        with open(f"/proc/{self.run.pid}/status", encoding="utf-8") as it:
            return next(int(line.split()[1]) for line in it if line.startswith("VmRSS"))

    def more(self):
        read = os.read(self.out, 65_536)
        if not read:
            raise EOFError(f"the program ends with status {self.run.wait()}")
        self.read, self.at = self.read[self.at:] + read, 0

    def line(self):
        """The next line."""
        while (end := self.read.find(b"\n", self.at)) < 0:
            self.more()
        line, self.at = self.read[self.at:end], end + 1
        return line

    def datagram(self, length):
        """This many bytes, followed by a line feed."""
        while len(self.read) <= self.at + length:
            self.more()
        data, self.at = self.read[self.at:self.at + length], self.at + length + 1
        return data

    def carry(self, events):
        """What was sent to which port, and the lines of notes."""
        text = b"".join(events)
        while text:
            text = text[os.write(self.into, text):]
        sent, notes = [], []
        while True:
            line = self.line()
            if not line.startswith(b"S "):
                if line.endswith(MARKED):
                    return sent, notes
                notes.append(line.decode())
                continue
            _, ip, port, length = line.split()
            data = self.datagram(int(length))
            if ip.decode() != MARK[0]:
                sent.append((int(port), data))

    def end(self):
        """What is written at the end of the script, and the exit status."""
        self.run.stdin.close()
        rest = self.read[self.at:]
        while read := os.read(self.out, 65_536):
            rest += read
        return rest.decode(errors="replace"), self.run.wait()


class Place:
    """A port of a telephone: what is sent from it to the server's SIP port is an event."""

    def __init__(self, moments, ip, number, take):
        self.moments, self.ip, self.number, self.take = moments, ip, number, take

    def send(self, data, where):
        if where == self.moments.server:
            self.moments.happen(b"D", b" %s %d %d\n%s" % (self.ip.encode(), self.number, len(data), data))
            self.moments.patience.came(data.decode())


class Patience:
    """When something may be due at the server: while nothing answers what it sent, when it retransmits that; and when
    it forgets."""

    def __init__(self, moments):
        self.moments, self.waits = moments, {}

    def look(self, milliseconds):
        self.moments.later(milliseconds, lambda: self.moments.happen(b"T"))

    def came(self, text):
        """From a telephone."""
        key, status = key_of(text), status_of(text)
        if status >= 200 or status and key[1] == "INVITE":
            self.waits.pop(key, None)
        elif key[1] == "ACK":
            self.waits.pop(handshake_of(text), None)
        looks = FORGETS[1:] if key[1] == "REGISTER" else FORGETS + RINGS if key[1] == "INVITE" and not status else FORGETS
        for it in looks:
            self.look(it)

    def sent(self, text):
        """To a telephone."""
        key, status = key_of(text), status_of(text)
        if status >= 200 and key[1] == "INVITE":
            self.wait(handshake_of(text), T2)
        elif not status and key[1] != "ACK":
            self.wait(key, WHOLE if key[1] == "INVITE" else T2)

    def wait(self, key, longest):
        """It is retransmitted at intervals that double, and given up at last."""
        before = self.waits.get(key)
        interval = self.waits[key] = min(2 * before, longest) if before else T1
        self.moments.after(interval, lambda: self.waits.get(key) == interval and self.moments.happen(b"T"))
        if not before:
            self.moments.after(WHOLE, lambda: self.give_up(key))

    def give_up(self, key):
        if self.waits.pop(key, None):
            for _ in range(2):
                self.moments.happen(b"T")
                self.look(1)


class Moments:
    """The loop of telephones whose moments come from a heap."""

    def __init__(self, program, server):
        self.program, self.server = program, server
        self.due, self.order, self.moment = [], itertools.count(), 0
        self.places, self.events, self.waiting, self.marks = {}, 0, [], 0
        self.patience, self.heed = Patience(self), lambda note: None
        self.sweep()

    def now(self):
        """Seconds."""
        return self.moment / 1_000

    def later(self, milliseconds, call):
        timer = [self.moment + milliseconds, next(self.order), call]
        heapq.heappush(self.due, timer)
        return timer

    def after(self, seconds, call):
        """Makes this call in this many seconds; calling what is returned before then cancels it."""
        timer = self.later(round(seconds * 1_000), call)

        def take_back():
            timer[2] = None

        return take_back

    def open(self, ip, take):
        number = FIRST_PORT + 2 * len(self.places)
        self.places[number] = Place(self, ip, number, take)
        return self.places[number]

    def happen(self, kind, more=b""):
        """An event of this moment. Its salt is its number."""
        self.events += 1
        self.waiting.append(b"%s %d %d%s\n" % (kind, self.moment, self.events, more))

    def sweep(self):
        for _ in range(SWEPT):
            self.happen(b"T")
        self.later(SWEEPS, self.sweep)

    def question(self):
        self.marks += 1
        return b"D %d %d %s %d %d\n%s\n" % (self.moment, 2 ** 63 + self.marks, MARK[0].encode(), MARK[1], len(QUESTION), QUESTION)

    def exchange(self):
        """Waiting events are carried out, and what is sent for them reaches the telephones, until nothing is left."""
        while self.waiting:
            events, self.waiting = [*self.waiting, self.question()], []
            sent, notes = self.program.carry(events)
            for it in notes:
                self.heed(it)
            for port, data in sent:
                self.patience.sent(data.decode())
                if port in self.places:
                    self.places[port].take(data)

    def run(self, until):
        """Runs until this moment, in seconds."""
        while self.due and self.due[0][0] <= until * 1_000:
            self.moment, _, call = heapq.heappop(self.due)
            if call:
                call()
                self.exchange()
        self.moment = round(until * 1_000)


def fields_of(note):
    """The word of a line of notes, and its keys with their values."""
    word, _, rest = note.partition(" ")
    return word, dict(re.findall(r"(\S+?)=(\S*)", rest))
