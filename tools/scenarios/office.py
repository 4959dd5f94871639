"""A server and its telephones, for one scenario."""
import contextlib
import json
import os
import re
import subprocess
import tempfile
import time
from dataclasses import dataclass

from scenarios.pace import slowed
from telephones.blocking import Call, Telephone, expect
from telephones.ports import reserved

IP, DOMAIN = "127.0.0.1", "office.example"
PAIRS = 64
# Telephones in pairs: calls between all of them at once have as many pairs of ports as there may be workers.
USERS = [str(user) for user in range(100, 108)]
KEY = "0123456789abcdef" * 4
PAYLOADS = (0, 1, 172, 1_500, 65_507)
# Seconds of an idle computer: in which each message arrives; in which the program ends, or carries out a command; and
# in which nothing may be heard after a call.
TIMEOUT, SECONDS, OVER = 3, 20, 0.3
# Seconds within which a line of the log is written, after what it reports.
LOGGED = 2
# A token of the server: a salt, and how many tokens came before.
TOKEN = re.compile(r"\b([0-9a-f]{16})\.\d+\b")
# The server sends an INVITE or a BYE because of what the telephones sent last.
FORWARDED = re.compile(r"(?:INVITE|BYE) [\s\S]*?z9hG4bK([0-9a-f]{16})\.")


@dataclass
class Sent:
    """What a telephone sent: when, from which port, and the salt of its event if what the server then sent shows it."""

    moment: float
    port: int
    data: bytes
    salt: int = 0


class Witness(Telephone):
    """A telephone that notes what it sends, and the salts of what it takes."""

    def __init__(self, user, office):
        super().__init__(user, DOMAIN, office.where, IP, slowed(TIMEOUT))
        self.office = office

    def send(self, text):
        self.office.day.append(Sent(time.monotonic(), self.port, text.encode()))
        return super().send(text)

    def next(self):
        message = super().next()
        self.office.salts |= set(TOKEN.findall(message))
        forwarded = FORWARDED.match(message)
        if forwarded and message not in self.taken:
            self.office.day[-1].salt = int(forwarded[1], 16)
        return message


class Office:
    """A running server, what its telephones sent, and the salts that they saw."""

    def __init__(self, kept, where, config, process, error, since):
        self.kept, self.where, self.config, self.process, self.error = kept, where, config, process, error
        self.page = (IP, where[1] + 1)
        # The microseconds since 1970 at which the program was run, and at which it says that it listens.
        self.since, self.until = since, 0
        self.day, self.salts = [], set()

    def listens(self):
        """Whether its first line says so."""
        line = self.process.stdout.readline()
        self.until = time.time_ns() // 1_000
        return line == f"listening {IP} {self.where[1]}\n"

    def lines(self):
        """The lines on its standard error. Both processes share the file's position, which reading must not move."""
        return os.pread(self.error.fileno(), os.fstat(self.error.fileno()).st_size, 0).decode().splitlines()

    def telephone(self, user):
        """A telephone that is not registered."""
        made = Witness(user, self)
        self.kept.callback(made.close)
        return made

    def telephones(self, users=USERS[:2]):
        """Telephones of these users, all registered."""
        made = [self.telephone(user) for user in users]
        for telephone in made:
            register(telephone)
        return made


def configuration(first, workers, further, key):
    """The SIP port is the first of the server's; the second is for a page; the relay has all from the third on."""
    return (f'ip = "{IP}"\nsip_port = {first}\ndomain = "{DOMAIN}"\nusers = {json.dumps(USERS)}\n'
            f'relay_first = {first + 2}\nrelay_pairs = {PAIRS}\nmin_expires = 60\nworkers = {workers}\n'
            f'random_key = "{key}"\n{further}')


@contextlib.contextmanager
def started(program, workers, further="", has_page=False, limits=(), turns=0, error=None, prepare=None, key=KEY):
    """An office whose server starts with these workers and further lines of its configuration, by a command that begins
    with the words of limits. It ends after as many turns, where there are any; writes to this error, or else to a file;
    and its process is prepared by this function."""
    with contextlib.ExitStack() as kept:
        first = kept.enter_context(reserved(IP, 2 + 2 * PAIRS))
        error = error or kept.enter_context(tempfile.TemporaryFile("w+"))
        config = kept.enter_context(tempfile.NamedTemporaryFile("w", suffix=".toml"))
        config.write(configuration(first, workers, further + (f'status = "{IP}:{first + 1}"\n' if has_page else ""), key))
        config.flush()
        os.chmod(config.name, 0o644)
        words = [*limits, program, "serve", "--config", config.name, *(["--turns", str(turns)] if turns else [])]
        since = time.time_ns() // 1_000
        process = kept.enter_context(subprocess.Popen(words, stdout=subprocess.PIPE, stderr=error, text=True, preexec_fn=prepare))
        kept.callback(process.kill)
        yield Office(kept, (IP, first), config.name, process, error, since)


@contextlib.contextmanager
def serving(program, workers, further="", has_page=False):
    """An office whose server listens."""
    with started(program, workers, further, has_page) as office:
        expect(office.listens(), "it listens")
        yield office


def register(telephone):
    expect(telephone.is_bound(), f"{telephone.user} is registered")


def answered_call(caller, callee, length=0):
    """An answered call, by an INVITE of this length if one is given."""
    call = Call(caller, callee)
    call.dial(length)
    call.ring()
    call.answer()
    return call


def speak(call):
    """Both ends hear datagrams of many lengths."""
    for length in PAYLOADS:
        call.hears(call.caller, os.urandom(length))
        call.hears(call.callee, os.urandom(length))


def end(call):
    """The caller hangs up; nothing is heard afterwards."""
    call.hang_up()
    expect(call.is_over(slowed(OVER)), "nothing after the end")
