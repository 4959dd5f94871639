"""The trial's own telephone, which says what the others can't: UPDATE, 0.0.0.0, video, and no answer at all."""
import ctypes
import os
import random
import re
import socket
import struct
import threading
import time

from telephones.audio import tone_in_alaw
from telephones.descriptions import describe
from telephones.messages import Dialog, Identity, body_of, contact_of, header
from telephones.network import BRIDGE, SERVER

CLONE_NEWNET = 0x40000000
AUDIO_PORT, VIDEO_PORT = 20_000, 20_002
OFFERS = {
    "audio": [f"m=audio {AUDIO_PORT} RTP/AVP 8 0", "a=rtpmap:8 PCMA/8000", "a=rtpmap:0 PCMU/8000"],
    "video": [f"m=video {VIDEO_PORT} RTP/AVP 96", "a=rtpmap:96 H264/90000"],
    "mux": [f"m=audio {AUDIO_PORT} RTP/AVP 8", "a=rtpmap:8 PCMA/8000", "a=rtcp-mux"],
}


def sockets_within(host, ports):
    """UDP sockets at these ports, in the namespace of a host."""
    libc = ctypes.CDLL(None, use_errno=True)
    own = os.open("/proc/self/ns/net", os.O_RDONLY)
    other = os.open(f"/run/netns/{BRIDGE}-{host}", os.O_RDONLY)
    try:
        if libc.setns(other, CLONE_NEWNET):
            raise OSError(ctypes.get_errno(), "setns")
        made = []
        for port in ports:
            made.append(socket.socket(socket.AF_INET, socket.SOCK_DGRAM))
            made[-1].bind(("0.0.0.0", port))
        return made
    finally:
        libc.setns(own, CLONE_NEWNET)
        os.close(own)
        os.close(other)


class Plain:
    kind = "plain"
    has = frozenset()
    is_mute = False

    def __init__(self, user, address, tone, folder, **wishes):
        self.user, self.address, self.tone, self.wishes = user, address, tone, wishes
        self.identity = Identity(user, SERVER, address, 5060)
        self.number, self.version, self.hop = 0, 1, None
        # The present dialog, and the URI that its requests go to; and the last INVITE that it sent, with its dialog.
        self.dialog = self.target = self.invite = self.early = None
        self.messages, self.news = [], threading.Condition()
        self.runs = True

    def __str__(self):
        return self.kind

    # ---- life

    def start(self):
        self.sip, self.rtp, self.video = sockets_within(self.user, (5060, AUDIO_PORT, VIDEO_PORT))
        # A socket that is closed while somebody waits at it stays open.
        self.sip.settimeout(0.2)
        threading.Thread(target=self.listen, daemon=True).start()
        threading.Thread(target=self.speak, daemon=True).start()
        self.register(600)

    def end(self):
        self.runs = False
        time.sleep(0.3)
        for it in (self.sip, self.rtp, self.video):
            it.close()

    def listen(self):
        while self.runs:
            try:
                data, _ = self.sip.recvfrom(65535)
            except TimeoutError:
                continue
            except OSError:
                return
            self.take(data.decode("utf-8", "replace"))

    def note(self, text):
        """Tells anyone who waits for a message about it."""
        with self.news:
            self.messages.append(text)
            self.news.notify_all()

    def speak(self):
        second = tone_in_alaw(self.tone)
        place, number, stamp, moment = 0, random.randrange(60000), random.randrange(1 << 30), time.time()
        while self.runs:
            moment += 0.02
            time.sleep(max(0, moment - time.time()))
            if self.hop:
                body = second[place:place + 160]
                try:
                    self.rtp.sendto(struct.pack("!BBHII", 0x80, 8, number & 0xffff, stamp, 1) + body, self.hop)
                except OSError:
                    return
            place, number, stamp = (place + 160) % 8000, number + 1, stamp + 160

    # ---- messages

    def send(self, text):
        self.sip.sendto(text.encode(), (SERVER, 5060))

    def request(self, method, uri, dialog, body="", branch="", further=()):
        """A request with this branch, or else with its own."""
        branch = branch or f"z9hG4bK{random.randrange(1 << 60):x}"
        return self.identity.request(method, uri, dialog, self.number, branch, body, further)

    def respond(self, request, status, body=""):
        self.send(self.identity.response(request, status, self.tag, body))

    def description(self, media=("audio",), address="", direction="sendrecv"):
        self.version += 1
        lines = [line for medium in media for line in OFFERS[medium]]
        return describe(self.address, 7, self.version, [f"a={direction}", *lines], address)

    def answer_to(self, offer):
        """An answer that accepts the audio and rejects the rest."""
        self.version += 1
        lines = ["a=sendrecv"]
        for medium in re.findall(r"m=(.*)\r\n", offer):
            kind, port, transport, first = medium.split()[:4]
            is_taken = kind == "audio" and port != "0"
            if is_taken:
                lines += [f"m={kind} {AUDIO_PORT} {transport} 8", "a=rtpmap:8 PCMA/8000"]
            else:
                lines += [f"m={kind} 0 {transport} {first}"]
        return describe(self.address, 8, self.version, lines)

    def learn(self, description):
        """Where the other end's audio is heard."""
        head, *media = re.split(r"(?m)^(?=m=)", description)
        audio = next((it for it in media if it.startswith("m=audio")), "")
        address = re.search(r"c=IN IP4 (\S+)", audio) or re.search(r"c=IN IP4 (\S+)", head)
        port = re.search(r"m=audio (\d+)", audio)
        if address and port:
            way = re.search(r"a=(sendrecv|sendonly|recvonly|inactive)", audio) or re.search(r"a=(sendrecv|sendonly|recvonly|inactive)", head)
            silent = address[1] == "0.0.0.0" or (way and way[1] in ("sendonly", "inactive"))
            self.hop = None if silent or port[1] == "0" else (address[1], int(port[1]))

    def take(self, text):
        self.respond_to(text)
        self.note(text)

    def respond_to(self, text):
        """Sends what must be said at once."""
        line, body = text.split("\r\n")[0], body_of(text)
        if line.startswith("INVITE ") and ";tag=" not in header(text, "To"):
            self.tag = f"t{random.randrange(1 << 40):x}"
            self.asked = text
            self.target, self.dialog = contact_of(text), Dialog(header(text, "Call-ID"), self.tag, header(text, "From"))
            self.respond(text, 180)
        elif line.startswith(("INVITE ", "UPDATE ")):
            self.respond(text, 200, self.answer_to(body) if body else "")
            self.learn(body)
        elif line.startswith(("BYE ", "OPTIONS ")):
            self.respond(text, 200)
            self.hop = None
        elif line.startswith("CANCEL "):
            self.respond(text, 200)
            self.respond(self.asked, 487)

    def wait(self, start, pattern, seconds=6):
        end = time.time() + seconds
        with self.news:
            while True:
                for text in self.messages[start:]:
                    if re.match(pattern, text):
                        return text
                left = end - time.time()
                if left <= 0:
                    return None
                self.news.wait(left)

    # ---- what a telephone does

    def register(self, seconds):
        self.number += 1
        dialog = Dialog(f"r{id(self)}", "r", self.identity.address)
        self.send(self.request("REGISTER", f"sip:{SERVER}", dialog, further=[f"Expires: {seconds}"]))

    def leave(self):
        self.register(0)

    def dial(self, user, media=("audio",)):
        threading.Thread(target=self.call, args=(user, media), daemon=True).start()

    def call(self, user, media):
        start = len(self.messages)
        self.number += 1
        self.tag, self.branch = f"f{random.randrange(1 << 40):x}", f"z9hG4bK{random.randrange(1 << 60):x}"
        self.uri = f"sip:{user}@{SERVER}"
        self.early = Dialog(f"c{random.randrange(1 << 40):x}", self.tag, f"<{self.uri}>")
        self.invite = self.request("INVITE", self.uri, self.early, self.description(media), self.branch)
        self.send(self.invite)
        final = self.wait(start, r"SIP/2\.0 [2-6]\d\d (?s:.*)CSeq: \d+ INVITE", 240)
        if not final or not self.runs:
            return
        if final.startswith("SIP/2.0 2"):
            self.target, self.dialog = contact_of(final), self.early._replace(to=header(final, "To"))
            self.send(self.request("ACK", self.target, self.dialog))
            self.learn(body_of(final))
        else:
            self.send(self.identity.refusal_ack(self.invite, final))

    def answer(self):
        body = body_of(self.asked)
        self.respond(self.asked, 200, self.answer_to(body))
        self.learn(body)

    def reject(self):
        self.respond(self.asked, 603)

    def inside(self, method, body=""):
        """A request in the dialog, and its final response, with the ACK of an INVITE."""
        dialog, target = self.dialog, self.target
        start = len(self.messages)
        self.number += 1
        number = self.number
        self.send(self.request(method, target, dialog, body))
        final = self.wait(start, rf"SIP/2\.0 [2-6]\d\d (?s:.*)CSeq: {number} {method}")
        if final and method == "INVITE":
            self.send(self.request("ACK", target, dialog))
        if final and body and final.startswith("SIP/2.0 2"):
            self.learn(body_of(final))
        return final

    def hang_up(self):
        if self.dialog:
            self.inside("BYE")
            self.dialog = self.hop = None
        else:
            self.send(self.request("CANCEL", self.uri, self.early, branch=self.branch))

    def hold(self):
        self.inside("INVITE", self.description(direction="sendonly"))
        self.hop = None

    def resume(self):
        self.inside("INVITE", self.description())
