#!/usr/bin/env python3
"""What a call costs: the server alone on one processor, and calls without media through it by sipp (Debian's package sip-tester).

usage: series.py PROGRAM [--rounds N]

Each round starts the server at 127.0.0.10:15760, registers users 100 and 101, makes 240 calls at 30 a second, waits until their pairs of ports are
free again, makes 900 calls at 800 a second, and tells the microseconds of the server's processor time a call, with how many calls failed. The server
runs on processor 1, at real-time priority where that is allowed; sipp runs on processors 2 and 3. Exit status 1 where a call failed."""
import argparse
import csv
import os
import pathlib
import shutil
import subprocess
import sys
import tempfile
import time

HERE = pathlib.Path(__file__).resolve().parent
IP, PORT = "127.0.0.10", 15760
CALLER, CALLEE = ("100", "127.0.0.2", 5061), ("101", "127.0.0.3", 5062)
RATES = ((30, 240), (800, 900))
# A pair of ports rests for 32 s.
REST = 33
CONFIGURATION = f"""ip = "{IP}"
sip_port = {PORT}
domain = "office.example"
users = ["100", "101"]
relay_first = 20000
relay_pairs = 2048
min_expires = 60
workers = 1
random_key = "{"5a" * 32}"
"""


def on(processor, words, urgent=False):
    """A command on one processor, in front of all others if that is allowed."""
    front = ["chrt", "-r", "1"] if urgent and os.geteuid() == 0 and shutil.which("chrt") else []
    last = str(min(processor, (os.cpu_count() or 1) - 1))
    return ["taskset", "-c", last, *front, *words]


def sipp(folder, processor, scenario, end, further):
    user, ip, port = end
    words = ["sipp", f"{IP}:{PORT}", "-sf", str(HERE / f"{scenario}.xml"), "-i", ip, "-p", str(port), "-mp", "40000", "-nostdin", "-l", "5000",
             "-key", "domain", "office.example", "-key", "user", user, "-key", "callee", CALLEE[0], "-d", "0",
             "-trace_stat", "-stf", f"{scenario}.csv", "-fd", "1", *further]
    return subprocess.Popen(on(processor, words), cwd=folder, stdout=subprocess.DEVNULL, stderr=subprocess.DEVNULL)


def spent(process):
    """The microseconds of processor time of a process so far."""
    fields = pathlib.Path(f"/proc/{process.pid}/stat").read_text().rpartition(")")[2].split()
    return (int(fields[11]) + int(fields[12])) * 1_000_000 // os.sysconf("SC_CLK_TCK")


def calls(folder, server, rate, count):
    """The microseconds a call, and how many calls failed."""
    callee = sipp(folder, 3, "callee", CALLEE, ["-m", str(count)])
    time.sleep(0.5)
    before = spent(server)
    caller = sipp(folder, 2, "caller", CALLER, ["-m", str(count), "-r", str(rate)])
    caller.wait(count / rate + 60)
    time.sleep(1)
    after = spent(server)
    callee.kill()
    last = list(csv.DictReader(open(folder / "caller.csv", encoding="utf-8"), delimiter=";"))[-1]
    return (after - before) // count, count - int(last["SuccessfulCall(C)"])


def round_of(program, folder):
    """Each rate's microseconds a call, and failed calls."""
    server = subprocess.Popen(on(1, [program, "serve", "--config", "office.toml"], urgent=True), cwd=folder, stdout=subprocess.PIPE, stderr=subprocess.DEVNULL)
    try:
        server.stdout.readline()
        for end in CALLER, CALLEE:
            if sipp(folder, 2, "register", end, ["-m", "1", "-key", "expires", "3600"]).wait(40):
                sys.exit("series: no binding")
        for place, (rate, count) in enumerate(RATES):
            time.sleep(REST if place else 0)
            yield rate, *calls(folder, server, rate, count)
    finally:
        server.kill()
        server.wait()


def main():
    parser = argparse.ArgumentParser()
    parser.add_argument("program")
    parser.add_argument("--rounds", type=int, default=2)
    given = parser.parse_args()
    program, failures = str(pathlib.Path(given.program).resolve()), 0
    for number in range(given.rounds):
        with tempfile.TemporaryDirectory() as name:
            folder = pathlib.Path(name)
            (folder / "office.toml").write_text(CONFIGURATION, encoding="utf-8")
            for rate, cost, failed in round_of(program, folder):
                print(f"round {number + 1}: {rate} calls a second: {cost} us a call, {failed} failed", flush=True)
                failures += failed
    return 1 if failures else 0


if __name__ == "__main__":
    sys.exit(main())
