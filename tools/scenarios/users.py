"""Users that the configuration's file gains and loses during a call."""
import json
import os
import re
import time

from scenarios.office import LOGGED, USERS, answered_call, end, register, serving
from scenarios.pace import becomes, slowed
from telephones.blocking import expect
from telephones.messages import status_of

# The user that the file gains during a call, the one that it loses, and the one that later replaces the first.
NEWCOMER, LEAVER, LATECOMER = "200", "102", "201"
# Seconds in which the server has seen that, and for which a wrong file is left: it looks every two seconds.
SEEN, LOOKED = 3, 5
TROUBLE, OVER = "office: trouble: config: line 4: users: ", "office: trouble is over: config"


def put_users(file, users, moment=None):
    """Writes a new configuration file with these users, as an editor does: another file takes its place, whose
    modification time is now, or this one, in nanoseconds."""
    with open(file, encoding="utf-8") as config:
        text = re.sub(r"(?m)^users = .*$", f"users = {json.dumps(users)}", config.read())
    with open(f"{file}.new", "w", encoding="utf-8") as config:
        config.write(text)
    os.chmod(f"{file}.new", 0o644)
    if moment:
        os.utime(f"{file}.new", ns=(moment, moment))
    os.replace(f"{file}.new", file)


def talk(call, holds, most, least=0):
    """Both ends of a call talk until something holds, for this many seconds at most and at least, and hear each word.
    Returns whether it held, and how often each spoke."""
    begun, words = time.monotonic(), 0
    while (talked := time.monotonic() - begun) < most:
        for speaker in (call.caller, call.callee):
            call.hears(speaker, os.urandom(172))
        words += 1
        if talked >= least and holds():
            return True, words
        time.sleep(0.02)
    return False, words


def is_no_user(telephone):
    return status_of(telephone.register()) == 404


def refuse_leaver(leaver, other):
    """Anyone who is no user any more can't register, and can't be called."""
    expect(is_no_user(leaver), f"{leaver.user} receives 404")
    invite = other.call(leaver.user, f"l{other.port}")
    other.acknowledge_refusal(invite, other.take("SIP/2.0 404", "INVITE"))


class Change:
    """A server whose configuration file changes while two of its telephones talk."""

    def __init__(self, office):
        self.office, self.file = office, office.config
        self.users = [user for user in USERS if user != LEAVER] + [NEWCOMER]
        caller, callee, self.other, self.leaver = office.telephones([*USERS[:2], USERS[3], LEAVER])
        self.newcomer = office.telephone(NEWCOMER)
        expect(is_no_user(self.newcomer), "nobody is a user before he is in the file")
        self.call, self.words = answered_call(caller, callee), 0

    def told(self, beginning):
        return [line for line in self.office.lines() if line.startswith(beginning)]

    def talk(self, holds, most, least=0):
        """Whether something came to hold while both ends talked."""
        held, words = talk(self.call, holds, most, least)
        self.words += words
        return held

    def exchange_users(self):
        """A user is added, and another removed."""
        put_users(self.file, self.users)
        is_seen = self.talk(lambda: status_of(self.newcomer.register()) == 200, slowed(SEEN))
        expect(is_seen, f"{NEWCOMER} is registered within {SEEN} s")
        refuse_leaver(self.leaver, self.other)
        end(answered_call(self.other, self.newcomer))

    def be_wrong(self):
        """A user is in the file twice, which changes nothing; then the file is right again."""
        put_users(self.file, [*self.users, USERS[0]])
        self.talk(lambda: self.told(TROUBLE), slowed(LOOKED), LOOKED)
        register(self.newcomer)
        expect(is_no_user(self.leaver), "a wrong file changes nothing")
        put_users(self.file, [*reversed(self.users)])
        self.talk(lambda: self.told(OVER), slowed(SEEN))

    def change_within_a_second(self):
        """A file of the same size, whose modification time is a nanosecond later, is seen."""
        users = [LATECOMER if user == NEWCOMER else user for user in reversed(self.users)]
        put_users(self.file, users, os.stat(self.file).st_mtime_ns + 1)
        latecomer = self.office.telephone(LATECOMER)
        is_seen = self.talk(lambda: status_of(latecomer.register()) == 200, slowed(SEEN))
        expect(is_seen, f"{LATECOMER} is registered within {SEEN} s")

    def expect_lines(self):
        """The server reported each change of the file once, and all media of the call were passed on."""
        becomes(lambda: len(self.told("call-ended")) == 2, LOGGED)
        ends = self.told("call-ended")
        counts = rf"media-from-caller={self.words} media-from-callee={self.words}\b"
        expect(ends and re.search(counts, ends[-1]), f"all media went on: {ends}")
        lines = self.told(("users-changed", "office: trouble"))
        changed = f"users-changed added=1 removed=1 count={len(self.users)}"
        are_right = len(lines) == 4 and lines[1].startswith(TROUBLE) and [lines[0], *lines[2:]] == [changed, OVER, changed]
        expect(are_right, f"the lines on the file are {lines}")


def change_users(program):
    """While two telephones talk, the configuration file gains a user and loses one; then it is wrong, and right
    again; then it changes within a second."""
    with serving(program, workers=2) as office:
        change = Change(office)
        change.exchange_users()
        change.be_wrong()
        change.change_within_a_second()
        end(change.call)
        time.sleep(LOGGED)
        change.expect_lines()
