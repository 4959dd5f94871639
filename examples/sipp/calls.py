#!/usr/bin/env python3
"""Calls through the server by sipp (Debian's package sip-tester), each with a media stream both ways.

usage: calls.py [--server IP:PORT] [--domain D] [--calls N] [--rate N] [--seconds S] [--packets N]

Registers user 100 at 5061 and 101 at 5062, makes N calls from 100 to 101, R a second, each of S seconds. When a call is answered each end
sends packets of 172 bytes, one each 20 ms, to where it was told. It checks that both scenarios end well for each call; that what an end
sends arrives at one other end, all of it, and what that one sends arrives at the first; and after the last call that nothing is sent on any
more. Then both users leave. Exit status 1 where a check fails. Only addresses of the loopback (127.) are taken."""
import argparse
import collections
import csv
import os
import pathlib
import selectors
import socket
import subprocess
import sys
import tempfile
import time

HERE = pathlib.Path(__file__).resolve().parent
IP = "127.0.0.1"
CALLER, CALLEE = ("100", 5061, 22000), ("101", 5062, 32000)     # user, SIP port, the media port that sipp opens for itself
ABOVE = 100         # the first call's media port lies so far above, as the scenarios say
STEP = 0.02


def arguments():
    parser = argparse.ArgumentParser()
    parser.add_argument("--server", default="127.0.0.1:5060")
    parser.add_argument("--domain", default="office.example")
    parser.add_argument("--calls", type=int, default=10)
    parser.add_argument("--rate", type=int, default=2)
    parser.add_argument("--seconds", type=float, default=2)
    parser.add_argument("--packets", type=int, default=20)
    given = parser.parse_args()
    if not given.server.startswith("127."):
        parser.error("only the loopback")
    return given


def sipp(given, folder, scenario, end, further):
    user, port, media = end
    words = ["sipp", given.server, "-sf", str(HERE / f"{scenario}.xml"), "-i", IP, "-p", str(port), "-mp", str(media), "-nostdin", "-l", "5000",
             "-key", "domain", given.domain, "-key", "user", user, "-key", "callee", CALLEE[0], "-trace_logs", "-log_file", f"{scenario}.log",
             "-trace_stat", "-stf", f"{scenario}.csv", "-fd", "1", "-trace_err", "-error_file", f"{scenario}.err", *further]
    return subprocess.Popen(words, cwd=folder, stdout=subprocess.DEVNULL, stderr=subprocess.DEVNULL)


def counts(folder, scenario):
    rows = list(csv.DictReader(open(folder / f"{scenario}.csv", encoding="utf-8"), delimiter=";"))
    last = rows[-1]
    return {name: int(last[key]) for name, key in (("good", "SuccessfulCall(C)"), ("failed", "FailedCall(C)"), ("repeated", "Retransmissions(C)"))}


class Lines:
    """The lines of a log, as they come."""

    def __init__(self, path):
        self.path, self.file, self.rest = path, None, ""

    def take(self):
        if self.file is None:
            if not self.path.exists():
                return []
            self.file = open(self.path, encoding="utf-8")
        *lines, self.rest = (self.rest + self.file.read()).split("\n")
        return lines


class Media:
    """The media sockets of all calls. An end is its letter and its call's number there."""

    def __init__(self, packets):
        self.packets, self.selector = packets, selectors.DefaultSelector()
        self.sockets, self.there, self.due = {}, {}, []
        self.arrived = collections.defaultdict(collections.Counter)     # end that took -> Counter of ends that sent
        self.strangers = 0

    def open(self, letter, number, ip, port):
        end, first = (letter, number), (CALLER if letter == "A" else CALLEE)[2]
        s = socket.socket(socket.AF_INET, socket.SOCK_DGRAM)
        s.bind((IP, first + ABOVE + 4 * (number - 1)))
        s.setblocking(False)
        self.selector.register(s, selectors.EVENT_READ, end)
        self.sockets[end], self.there[end] = s, (ip, port)
        self.due.append((time.monotonic() + 0.1, end, self.packets))

    def send_one(self, end):
        words = f"{end[0]} {end[1]} ".encode()
        self.sockets[end].sendto(words + bytes(172 - len(words)), self.there[end])

    def send_due(self):
        now, later = time.monotonic(), []
        for moment, end, left in self.due:
            while left and moment <= now:
                self.send_one(end)
                moment, left = moment + STEP, left - 1
            if left:
                later.append((moment, end, left))
        self.due = later

    def take(self, seconds):
        for key, _ in self.selector.select(seconds):
            try:
                while True:
                    data, source = key.fileobj.recvfrom(2048)
                    letter, number = data.split(b" ")[:2]
                    self.arrived[key.data][letter.decode(), int(number)] += 1
                    self.strangers += source != self.there[key.data]
            except BlockingIOError:
                pass

    def run(self, seconds):
        self.send_due()
        self.take(seconds)


def check(faults, what, holds):
    print(f"{what}: {'ok' if holds else 'FAILED'}", flush=True)
    faults += [] if holds else [what]


def pairs_hold(media, calls):
    """Each end took all packets of one other end and no others, and that one all of its."""
    ends = [(letter, number) for letter in "AB" for number in range(1, calls + 1)]
    bad = 0
    for end in ends:
        taken = media.arrived[end]
        others = list(taken)
        if len(others) != 1 or others[0][0] == end[0] or taken[others[0]] != media.packets or list(media.arrived[others[0]]) != [end]:
            bad += 1
    return bad


def bind(given, folder, faults, seconds, what):
    """Both users ask for a binding of this many seconds, 0 for none."""
    for end in CALLER, CALLEE:
        registers = sipp(given, folder, "register", end, ["-m", "1", "-key", "expires", str(seconds)])
        check(faults, f"{end[0]} {what}", registers.wait(40) == 0)


def follow(given, folder, media, caller):
    """Takes the logs as they come and carries the media, until the caller's scenario ends."""
    logs = [Lines(folder / "caller.log"), Lines(folder / "callee.log")]
    end = time.monotonic() + given.calls / given.rate + given.seconds + 40
    while caller.poll() is None and time.monotonic() < end:
        for lines in logs:
            for line in lines.take():
                letter, number, ip, port = line.split()
                media.open(letter, int(number), ip, int(port))
        media.run(0.01)


def make_calls(given, folder, media):
    callee = sipp(given, folder, "callee", CALLEE, [])
    time.sleep(0.5)
    caller = sipp(given, folder, "caller", CALLER, ["-m", str(given.calls), "-r", str(given.rate), "-d", str(int(given.seconds * 1000))])
    try:
        follow(given, folder, media, caller)
        time.sleep(1.5)
    finally:
        for process in caller, callee:
            process.terminate()
            process.wait()


def nothing_passes(media):
    """Behind the last call no packet is sent on."""
    before = sum(sum(taken.values()) for taken in media.arrived.values())
    for end in media.sockets:
        media.send_one(end)
    until = time.monotonic() + 1
    while time.monotonic() < until:
        media.run(0.05)
    return before == sum(sum(taken.values()) for taken in media.arrived.values())


def main():
    given, faults = arguments(), []
    folder = pathlib.Path(tempfile.mkdtemp(prefix="sipp-"))
    bind(given, folder, faults, 3600, "registers")
    media = Media(given.packets)
    make_calls(given, folder, media)
    for scenario in "caller", "callee":
        found = counts(folder, scenario)
        print(f"{scenario}: {found['good']} good, {found['failed']} failed, {found['repeated']} messages sent again")
        check(faults, f"{scenario}: each call ended well", found["good"] == given.calls and not found["failed"])
    taken = sum(sum(t.values()) for t in media.arrived.values())
    print(f"media: {taken} of {2 * given.calls * given.packets} packets arrived; ends that did not take all of one other end's: {pairs_hold(media, given.calls)}")
    check(faults, "media: each end took all of its call's other end, from where it sent itself", not pairs_hold(media, given.calls) and not media.strangers)
    check(faults, "media: nothing passes after the last call", nothing_passes(media))
    bind(given, folder, faults, 0, "leaves")
    print(f"logs: {folder}")
    sys.exit(1 if faults else 0)


main()
