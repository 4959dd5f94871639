"""Floods of requests at a server on this computer, and a telephone that registers beside them. All addresses are in
127.0.0.0/8."""
import contextlib
import dataclasses
import multiprocessing
import os
import socket
import subprocess
import sys
import time

NETWORK = "127.77.0.0/24"
SERVER, TELEPHONE, STRANGER = ("127.77.0.1", 5060), "127.77.0.11", "127.77.0.12"
# If more than one address floods, they are of another network than the server's.
STRANGERS = "127.78.0.{}"
DOMAIN = "office.example"
# A request is first retransmitted after T1 seconds, then after intervals that double up to T2, and is given up after
# the whole time (RFC 3261 section 17.1.2).
T1, T2, WHOLE = 0.5, 4.0, 32.0
# How long a telephone rests after a 200, and what counts as a wait, in seconds.
RESTS, IS_WAIT = 0.25, 0.05
PRIORITY = 20
CONFIGURATION = """ip = "{ip}"
sip_port = {port}
domain = "{domain}"
users = ["100..199"]
relay_first = 40000
relay_pairs = 64
min_expires = 60
workers = 1
random_key = "{key}"
log = "{log}"
"""
REQUEST = """{method} sip:{domain} SIP/2.0\r
Via: SIP/2.0/UDP {source};branch={branch}{number};rport\r
Max-Forwards: 70\r
From: <sip:{user}@{domain}>;tag=t{number}\r
To: <sip:{user}@{domain}>\r
Call-ID: {call}\r
CSeq: {number} {method}\r
{more}Content-Length: 0\r
\r
"""
# The method of each kind of flood, and how its branches begin. The server refuses a branch from before RFC 3261 with
# 400, and begins no transaction.
KINDS = {
    "options": ("OPTIONS", "z9hG4bKflood"),
    "register": ("REGISTER", "z9hG4bKflood"),
    "refused": ("OPTIONS", "flood"),
}


@dataclasses.dataclass(frozen=True)
class Flood:
    """A flood, the server that it meets, and how often the telephone registers."""

    kind: str = "options"
    sources: int = 1
    rate: int = 1000
    seconds: float = 36
    share: int | None = None
    log: str = "calls"
    has_rules: bool = False
    # The seconds between two REGISTERs; without it, the telephone registers again once it has rested after a 200.
    each: float | None = None

    def __str__(self):
        addresses = "one address" if self.sources == 1 else f"{self.sources} addresses"
        share = f"source_share {self.share}" if self.share else "no share"
        rules = "the rules of nftables.conf" if self.has_rules else "no rules"
        flood = f"{self.kind} from {addresses}, {self.rate} a second for {self.seconds:g} s"
        return f'{flood}; {share}, log "{self.log}", {rules}'


def be_urgent():
    """Gives this process real-time priority if that is allowed."""
    with contextlib.suppress(PermissionError):
        os.sched_setscheduler(0, os.SCHED_FIFO, os.sched_param(PRIORITY))


@contextlib.contextmanager
def a_server(program, folder, flood):
    """Has the program serve until the context ends."""
    office, said = f"{folder}/office.toml", f"{folder}/said"
    with open(office, "w", encoding="utf-8") as it:
        it.write(CONFIGURATION.format(ip=SERVER[0], port=SERVER[1], domain=DOMAIN, key="5a" * 32, log=flood.log))
        it.write(f"source_share = {flood.share}\n" if flood.share else "")
    with open(said, "wb") as log:
        how = {"stdout": subprocess.PIPE, "stderr": log, "text": True, "preexec_fn": be_urgent}
        run = subprocess.Popen([program, "serve", "--config", office], **how)
    try:
        if not run.stdout.readline().startswith("listening"):
            with open(said, encoding="utf-8", errors="replace") as it:
                sys.exit(f"floods: the server doesn't listen: {it.read()}")
        yield
    finally:
        run.kill()
        run.wait()


def socket_at(ip):
    made = socket.socket(socket.AF_INET, socket.SOCK_DGRAM)
    made.bind((ip, 0))
    return made


def pour(flood, count):
    """Sends the requests of a flood, from each address in turn, and counts them. Nobody reads the responses."""
    be_urgent()
    addresses = [STRANGER] if flood.sources == 1 else [STRANGERS.format(it + 1) for it in range(flood.sources)]
    sources = [socket_at(it) for it in addresses]
    method, branch = KINDS[flood.kind]
    words = {"domain": DOMAIN, "source": STRANGER, "user": "150", "number": "NUMBER", "call": "floodNUMBER", "more": ""}
    text = REQUEST.format(method=method, branch=branch, **words).encode()
    start = time.monotonic()
    while (passed := time.monotonic() - start) < flood.seconds:
        if count.value >= passed * flood.rate:
            time.sleep(0.0002)
            continue
        sources[count.value % len(sources)].sendto(text.replace(b"NUMBER", b"%d" % (count.value + 1)), SERVER)
        count.value += 1


class Telephone:
    """A telephone that registers again and again, and notes how long it waits for each response."""

    def __init__(self, each):
        self.each, self.number, self.socket = each, 0, socket_at(TELEPHONE)
        # The seconds of each wait, and whether a 200 ended it.
        self.waits = []

    def request(self):
        """The next REGISTER, and its branch."""
        self.number += 1
        source = "{}:{}".format(*self.socket.getsockname())
        more = f"Contact: <sip:101@{source}>\r\nExpires: 3600\r\n"
        words = {"domain": DOMAIN, "source": source, "user": "101", "number": self.number, "call": "telephone"}
        text = REQUEST.format(method="REGISTER", branch="z9hG4bKtelephone", more=more, **words)
        return text.encode(), f"branch=z9hG4bKtelephone{self.number};".encode()

    def response(self, branch, until):
        """The status of a final response to the request of this branch, or 0 if none comes by then."""
        while (left := until - time.monotonic()) > 0:
            self.socket.settimeout(left)
            with contextlib.suppress(TimeoutError):
                data = self.socket.recv(65_536)
                if branch in data and int(data[8:11]) >= 200:
                    return int(data[8:11])
        return 0

    def register(self, until):
        """Registers once, and retransmits that request until a response comes. Returns when it began."""
        (text, branch), began, interval, status = self.request(), time.monotonic(), T1, 0
        ends = min(until, began + WHOLE)
        while not status and (now := time.monotonic()) < ends:
            self.socket.sendto(text, SERVER)
            status = self.response(branch, min(now + interval, ends))
            interval = min(2 * interval, T2)
        self.waits.append((time.monotonic() - began, status == 200))
        return began

    def live(self, until):
        """Registers until then."""
        while time.monotonic() < until:
            began = self.register(until)
            rests = RESTS if self.each is None else began + self.each - time.monotonic()
            time.sleep(max(0, min(rests, until - time.monotonic())))


def suffer(program, folder, flood):
    """Has a telephone register beside a flood. Returns its waits, and how many requests the flood had."""
    count = multiprocessing.Value("L", 0, lock=False)
    pouring = multiprocessing.get_context("fork").Process(target=pour, args=(flood, count))
    with a_server(program, folder, flood):
        telephone = Telephone(flood.each)
        pouring.start()
        try:
            be_urgent()
            telephone.live(time.monotonic() + flood.seconds)
        finally:
            os.sched_setscheduler(0, os.SCHED_OTHER, os.sched_param(0))
            pouring.kill()
            pouring.join()
    return telephone.waits, count.value
