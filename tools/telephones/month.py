"""Many days of calls between the telephones of an office, in a program that has no clock, and what is left
afterwards."""
from collections import Counter

from telephones.conversations import Conversation
from telephones.lossy import Line
from telephones.messages import status_of
from telephones.moments import Moments, Program, fields_of
from telephones.talking import Telephone

IP, SERVER, DOMAIN, TELEPHONES = "192.0.2.10", "192.0.2.1", "office.example", 100
# As many pairs as calls hold and leave to rest for 32 seconds.
PAIRS = 512
DAY, HOUR, HURRIES = 86_400, 3_600, 60
# Calls of a day, and the hours in which they begin; those of them in one minute, and those on the first day, which has
# more, so that no memory is first taken on a later day.
CALLS, OPEN, RUSH, FIRST = 970, 10, 30, 60
# Seconds: until telephones have registered; how often they do, and how soon after a failure; how long they speak at
# most after an answer, and are then silent before the server ends the call; until everything ends after the last day.
BEGINS, REGISTERS, AGAIN, SPEAK, SILENT, ENDS = 100, 1_800, 60, 5, 60, 600
# The events after which memory is steady, three in a hundred of a month's; the seconds between two looks at it.
STANDS, LOOKS, GROWTH = 30_000, 1_800, 1.05


def configuration():
    users = ", ".join(f'"{it}"' for it in range(1_000, 1_000 + TELEPHONES))
    return (f'ip = "{SERVER}"\nsip_port = 5060\ndomain = "{DOMAIN}"\nusers = [{users}]\nrelay_first = 40000\nrelay_pairs = {PAIRS}\nmin_expires = 60\n'
            f'silent_minutes = {SILENT // 60}\nrandom_key = "{"00" * 32}"\n')


class Month:
    def __init__(self, program, folder, fate, loss, days):
        with open(f"{folder}/month.toml", "w", encoding="utf-8") as it:
            it.write(configuration())
        self.program, self.fate, self.days = Program(program, f"{folder}/month.toml"), fate, days
        self.moments = Moments(self.program, (SERVER, 5_060))
        self.moments.heed = self.heed
        self.lines = [Line(self.moments, fate, loss) for _ in range(TELEPHONES)]
        self.telephones = [Telephone(self.moments, line, fate, str(1_000 + at), self.moments.server, DOMAIN, IP) for at, line in enumerate(self.lines)]
        self.idle, self.begun, self.ended, self.registered = [*self.telephones], 0, [], {}
        # The calls that exist in the server, by number, as its notes say; and the words of all notes.
        self.standing, self.words, self.looks = {}, Counter(), []

    # ---- what happens

    def register(self, telephone):
        """A telephone registers again and again; soon after a failure."""

        def took(response):
            if status_of(response) == 200:
                self.registered[telephone] = asked.text, response

        if self.moments.now() < self.days * DAY:
            asked = telephone.register(took, lambda asked: self.moments.after(AGAIN, lambda: self.register(telephone)))
            self.moments.after(REGISTERS, lambda: self.register(telephone))

    def begin(self):
        """Begins another call if two telephones are idle."""
        if len(self.idle) < 2:
            return
        self.fate.shuffle(self.idle)
        caller, callee = self.idle.pop(), self.idle.pop()
        self.begun += 1
        Conversation(self.moments, self.fate, self.begun, caller, callee, self.over)

    def over(self, call):
        self.ended.append(call)
        self.idle += [call.caller, call.callee]

    def heed(self, note):
        """Takes a line of the server's notes. In an answered call nothing is heard after a while."""
        word, said = fields_of(note)
        self.words[word] += 1
        if word == "call-begun":
            self.standing[said["call"]] = said
        elif word in ("call-refused", "call-cancelled", "call-ended"):
            self.standing.pop(said["call"], None)
        elif word == "call-answered":
            self.moments.after(SPEAK + SILENT, lambda: self.fall_silent(said["call"]))

    def fall_silent(self, number):
        """No media have come for long in a call."""
        if number in self.standing:
            self.moments.happen(b"Q", b" " + number.encode())

    def plan(self, day):
        """The calls of a day: some in one minute, the others in its hours."""
        start, rush = day * DAY + BEGINS - self.moments.now(), RUSH if day else FIRST
        for at in range(CALLS):
            self.moments.after(start + self.fate.random() * (HURRIES if at < rush else OPEN * HOUR), self.begin)
        if day + 1 < self.days:
            self.moments.after(start + DAY - BEGINS, lambda: self.plan(day + 1))

    def look(self):
        self.looks.append((self.moments.events, self.program.memory()))
        self.moments.after(LOOKS, self.look)

    def carry(self):
        for at, it in enumerate(self.telephones):
            self.moments.after(at / 2, lambda it=it: self.register(it))
        self.plan(0)
        self.moments.after(BEGINS + HURRIES, self.look)
        self.moments.run(self.days * DAY)
        self.moments.run(self.days * DAY + ENDS)

    # ---- what is checked

    def stale(self):
        """How many last REGISTERs the server still knows, of how many: it answers a repeat of such a one as before,
        with the same tag."""
        stale = []
        for it, (request, response) in self.registered.items():
            it.sip.take = lambda data, response=response: stale.append(data.decode() == response)
            it.sip.send(request.encode(), self.moments.server)
            self.moments.exchange()
        return sum(stale), len(stale)

    def faults(self):
        """What didn't hold, and of how many things."""
        failed = Counter(it.fault for it in self.ended if it.fault)
        events = self.moments.events
        stale = self.stale()
        rest, status = self.program.end()
        early, late = ([kilobytes for event, kilobytes in self.looks if (event > STANDS) == is_late] for is_late in (False, True))
        print(f"{self.days} days, {events} events; {len(self.ended)} calls: {dict(Counter(it.kind for it in self.ended))}; failed: {dict(failed)}")
        print(f"lost {sum(it.losses for it in self.lines)} datagrams; notes: {dict(self.words)}")
        print(f"resident in the first {STANDS} events: {min(early)} to {max(early)} kB, and after them {min(late, default=0)} to {max(late, default=0)} kB")
        return {
            "each call that failed has a line's fault": all(it.endswith("the line's") for it in failed),
            "each call ends, at its telephones and in the server": len(self.ended) == self.begun and not self.standing,
            "no call and no row stands at the end": not rest and not status,
            "no transaction of a REGISTER stands": stale == (0, TELEPHONES),
            "memory is what it was": not late or max(late) <= GROWTH * max(early),
        }
