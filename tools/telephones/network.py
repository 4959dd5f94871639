"""A separate network: a bridge, and a namespace for the server and for each telephone; and what passes the server's
interface."""
import re
import struct
import subprocess
import sys
import threading
import time

from telephones.messages import header

NET = "10.97.0"
SERVER = f"{NET}.1"
BRIDGE = "interop"


def run(*words):
    subprocess.run(words, check=True, stdout=subprocess.DEVNULL)


def inside(name, words):
    """The words of a command that runs in this host's namespace."""
    return ["ip", "netns", "exec", f"{BRIDGE}-{name}", *words]


class Network:
    """Hosts by name, each at an address of the network."""

    def __init__(self, hosts):
        self.hosts = hosts

    def __enter__(self):
        self.__exit__()
        run("ip", "link", "add", "name", BRIDGE, "type", "bridge")
        run("ip", "addr", "add", f"{NET}.254/24", "dev", BRIDGE)
        run("ip", "link", "set", BRIDGE, "up")
        for number, (name, address) in enumerate(self.hosts.items()):
            space, outer = f"{BRIDGE}-{name}", f"iop{number}"
            run("ip", "netns", "add", space)
            run("ip", "link", "add", outer, "type", "veth", "peer", "name", "eth0", "netns", space)
            run("ip", "link", "set", outer, "master", BRIDGE, "up")
            for words in (f"addr add {address}/24 dev eth0", "link set eth0 up", "link set lo up", f"route add default via {NET}.254"):
                run(*inside(name, ["ip", *words.split()]))
        return self

    def __exit__(self, *_):
        for number in range(len(self.hosts)):
            subprocess.run(["ip", "link", "del", f"iop{number}"], stderr=subprocess.DEVNULL)
        found = subprocess.run(["ip", "netns", "list"], capture_output=True, text=True).stdout
        for space in re.findall(rf"(?m)^({BRIDGE}-\S+)", found):
            subprocess.run(["ip", "netns", "del", space], stderr=subprocess.DEVNULL)
        subprocess.run(["ip", "link", "del", BRIDGE], stderr=subprocess.DEVNULL)


# ---- what passes

WATCH = """
import socket, struct, sys, time
s = socket.socket(socket.AF_PACKET, socket.SOCK_RAW, socket.htons(3))
out = sys.stdout.buffer
while True:
    data = s.recv(65535)
    if data[12:14] == b"\\x08\\x00" and data[23] == 17 and not struct.unpack("!H", data[20:22])[0] & 0x1fff:
        head = 14 + (data[14] & 15) * 4
        ports = data[head:head + 4]
        body = data[head + 8:]
        out.write(struct.pack("!dI", time.time(), 12 + len(body)) + data[26:34] + ports + body)
        out.flush()
"""


class Packet:
    """A datagram that passed the server's interface."""

    def __init__(self, moment, data):
        self.moment = moment
        self.source = ".".join(map(str, data[:4]))
        self.target = ".".join(map(str, data[4:8]))
        self.source_port, self.target_port = struct.unpack("!HH", data[8:12])
        self.body = data[12:]

    def is_sip(self):
        return 5060 in (self.source_port, self.target_port) or b"SIP/2.0" in self.body[:40] or b"SIP/2.0\r\n" in self.body[:400]

    def first_line(self):
        return self.body.split(b"\r\n")[0].decode("utf-8", "replace")

    def header(self, name):
        return header(self.body.decode("utf-8", "replace"), name)

    def is_rtp(self):
        return not self.is_sip() and len(self.body) >= 12 and self.body[0] >> 6 == 2 and not 192 <= self.body[1] <= 223


class Watch:
    """Notes what passes the server's interface, as it comes."""

    def __init__(self):
        self.packets = []
        self.news = threading.Condition()
        self.process = subprocess.Popen(inside("server", [sys.executable, "-c", WATCH]), stdout=subprocess.PIPE)
        threading.Thread(target=self.read, daemon=True).start()

    def read(self):
        stream = self.process.stdout
        while head := stream.read(12):
            moment, length = struct.unpack("!dI", head)
            packet = Packet(moment, stream.read(length))
            with self.news:
                self.packets.append(packet)
                self.news.notify_all()

    def since(self, start):
        """The packets from this place on."""
        with self.news:
            return self.packets[start:]

    def here(self):
        """The place after the last packet."""
        with self.news:
            return len(self.packets)

    def wait(self, start, wanted, seconds):
        """The first wanted packet from this place on, if it comes in time."""
        end = time.time() + seconds
        with self.news:
            while True:
                for packet in self.packets[start:]:
                    if wanted(packet):
                        return packet
                start = len(self.packets)
                left = end - time.time()
                if left <= 0:
                    return None
                self.news.wait(left)

    def end(self):
        self.process.kill()
        self.process.wait()
