"""A server's page, and requests that it drops."""
import contextlib
import json
import os
import re
import socket
import time

from scenarios.office import USERS, answered_call, end, serving, speak
from scenarios.pace import becomes, slowed
from scenarios.users import put_users
from telephones.blocking import expect

# The datagrams of media in the call that the page shows, the caller's first.
SPOKEN = (5, 3)
# Seconds in which a new snapshot is made for the page; and the connections made to it at once.
SHOWN, CROWD = 1.5, 1_000
# Seconds: in which a head that doesn't end is dropped, and a client that reads nothing of its response, which is after
# five; and for which the client waits for that.
LET_GO, WAITED = (4.5, 7), 10
# The connections that the server has room for. With these users the page has at least this many bytes. If clients have
# these buffers and segments, in bytes, the systems take less than half of it before a client reads.
PLACES, MANY_USERS, LONG = 32, [f"{number:03}".ljust(64, "x") for number in range(300)], 40_000
BUFFER, SEGMENT = 1, 300
REFUSED = {
    b"GET /other HTTP/1.1\r\n\r\n": 404,
    b"POST / HTTP/1.1\r\nContent-Length: 0\r\n\r\n": 405,
    b"no request\r\n\r\n": 400,
    b"GET / HTTP/1.1\r\nX: " + b"x" * 9_000 + b"\r\n\r\n": 431,
}


def fetch(at, request, seconds=WAITED):
    """What the page's server sends for these bytes, until it closes."""
    with socket.create_connection(at, timeout=slowed(seconds)) as made:
        made.sendall(request)
        return until_closed(made)


def until_closed(made):
    taken = b""
    with contextlib.suppress(ConnectionResetError):
        while more := made.recv(65536):
            taken += more
    return taken


def status_of(response):
    """The status of a response, and its body, whose length must be the stated one."""
    head, _, body = response.partition(b"\r\n\r\n")
    found = re.match(rb"HTTP/1\.1 (\d+) ", head)
    length = re.search(rb"(?i)\r\nContent-Length: (\d+)", head)
    expect(found and length and int(length[1]) == len(body), f"a response: {response[:100]}")
    return int(found[1]), body


def get(at, path):
    status, body = status_of(fetch(at, f"GET {path} HTTP/1.1\r\nHost: office\r\n\r\n".encode()))
    expect(status == 200, f"200 for {path}, not {status}")
    return body.decode("ascii")


def calls_at(at):
    return json.loads(get(at, "/status.json"))["calls"]


def totals_of(shown):
    """The datagrams of a call that the page shows, the caller's first."""
    return [shown["traffic"][way]["total"] for way in ("from_caller", "from_callee")]


def descriptors(process):
    return len(os.listdir(f"/proc/{process.pid}/fd"))


def show_a_call(at, call):
    """The page shows both users and the call while they talk, and how much went each way."""
    for speaker in [call.caller] * SPOKEN[0] + [call.callee] * SPOKEN[1]:
        call.hears(speaker, b"a word")
    becomes(lambda: [(shown["phase"], totals_of(shown)) for shown in calls_at(at)] == [("talking", [*SPOKEN])], SHOWN)
    shown = json.loads(get(at, "/status.json"))
    expect(len(shown["calls"]) == 1, f"the calls are {shown['calls']}")
    one = shown["calls"][0]
    ends = one["caller"], one["callee"], one["phase"]
    expect(ends == (call.caller.user, call.callee.user, "talking"), f"the call is {one}")
    expect(totals_of(one) == [*SPOKEN], f"the datagrams of {one}")
    media = [(medium["kind"], medium["codec"], medium["direction"]) for medium in one["media"]]
    expect(media == [("audio", "PCMU/8000", "both")], f"the media of {one}")
    show_users(at, shown, (call.caller, call.callee))


def show_users(at, shown, phones):
    """The page, the status and the metrics show who is registered."""
    metrics, page = get(at, "/metrics"), get(at, "/")
    bound = {user["name"]: [binding["contact"] for binding in user["bindings"]] for user in shown["users"]}
    for phone in phones:
        expect(bound[phone.user] == [phone.identity.contact[1:-1]], f"{phone.user} is bound to {bound[phone.user]}")
    users = [f'office_bindings{{user="{phone.user}"}} 1\n' for phone in phones]
    expect(all(line in metrics for line in ["office_calls 1\n", *users]), "the metrics have the call and both users")
    expect(all(f">{phone.user}<" in page for phone in phones), "the page has both users")


def refuse_requests(at):
    """Each refused request has its status, and a slow one is dropped after five seconds."""
    for request, status in REFUSED.items():
        found = status_of(fetch(at, request))[0]
        expect(found == status, f"{status} for {request[:20]}, not {found}")
    begun = time.monotonic()
    fetch(at, b"GET / HTTP/1.1\r\n", WAITED)
    waited = time.monotonic() - begun
    expect(LET_GO[0] <= waited <= slowed(LET_GO[1]), f"a slow head is dropped after {waited:.1f} s")


def ask_and_read_nothing(at):
    made = socket.socket()
    made.setsockopt(socket.IPPROTO_TCP, socket.TCP_MAXSEG, SEGMENT)
    made.setsockopt(socket.SOL_SOCKET, socket.SO_RCVBUF, BUFFER)
    made.connect(at)
    made.sendall(b"GET / HTTP/1.1\r\n\r\n")
    return made


def is_served(at):
    """Whether the server has room for a client. If not, it closes the connection at once."""
    with contextlib.suppress(ConnectionError, TimeoutError):
        return fetch(at, b"GET /metrics HTTP/1.1\r\n\r\n") != b""
    return False


def length_of_page(at):
    """How long the page is; 0 while none is made."""
    with contextlib.suppress(ConnectionError, TimeoutError):
        status, body = status_of(fetch(at, b"GET / HTTP/1.1\r\n\r\n"))
        return len(body) if status == 200 else 0
    return 0


def outwait_readers(office, idle):
    """Clients that read nothing of a long page take all room, and are let go after five seconds. The page is there
    again then. The server has this many descriptors when it has no client."""
    at = office.page
    put_users(office.config, [*USERS, *MANY_USERS])
    expect(becomes(lambda: length_of_page(at) >= LONG, WAITED), f"the page has {LONG} bytes")
    time.sleep(SHOWN)
    with contextlib.ExitStack() as kept:
        begun = time.monotonic()
        for _ in range(PLACES):
            kept.enter_context(ask_and_read_nothing(at))
        expect(becomes(lambda: is_served(at), WAITED), "the page comes back from clients that read nothing")
        waited = time.monotonic() - begun
        expect(LET_GO[0] <= waited <= slowed(LET_GO[1] + SHOWN), f"who reads nothing is let go after {waited:.1f} s")
        expect(becomes(lambda: descriptors(office.process) <= idle, SHOWN), "all who read nothing are let go")
    expect(becomes(lambda: length_of_page(at) >= LONG, WAITED), "the page is whole again")


def crowd(at):
    """A thousand connections at once: those that are dropped are closed, and nobody waits for them."""
    made = []
    for _ in range(CROWD):
        connection = socket.socket()
        connection.setblocking(False)
        connection.connect_ex(at)
        made.append(connection)
    time.sleep(SHOWN)
    for connection in made:
        connection.close()


def show_a_page(program):
    """A page is served if one is configured."""
    with serving(program, 2, has_page=True) as office:
        at = office.page
        call = answered_call(*office.telephones())
        idle = descriptors(office.process)
        show_a_call(at, call)
        refuse_requests(at)
        crowd(at)
        speak(call)
        time.sleep(SHOWN)
        get(at, "/")
        is_idle = becomes(lambda: descriptors(office.process) <= idle + 1, SHOWN)
        expect(is_idle, f"{descriptors(office.process)} descriptors, where {idle} were")
        outwait_readers(office, idle + 1)
        end(call)
        expect(becomes(lambda: calls_at(at) == [], SHOWN), "no call is left")
