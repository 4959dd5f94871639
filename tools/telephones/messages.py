"""SIP messages as text (RFC 3261): what is read of them, and how a telephone writes its own."""
import re
from typing import NamedTuple

BRANCH = re.compile(r"(?im)^Via[ \t]*:.*?;branch=([^;\s]+)")
SEQUENCE = re.compile(r"(?im)^CSeq[ \t]*:[ \t]*(\d+)[ \t]+(\w+)")
REASONS = {
    180: "Ringing", 200: "OK", 405: "Method Not Allowed", 481: "Call/Transaction Does Not Exist", 486: "Busy Here",
    487: "Request Terminated", 603: "Decline",
}


def headers(message, name):
    """The values of a header, from the top."""
    return re.findall(rf"(?im)^{name}[ \t]*:[ \t]*(.*?)\r$", message)


def header(message, name):
    """The first value of a header, or an empty text."""
    found = re.search(rf"(?im)^{name}[ \t]*:[ \t]*(.*?)\r$", message)
    return found[1] if found else ""


def body_of(message):
    return message.partition("\r\n\r\n")[2]


def status_of(message):
    """The status of a response, and 0 of a request."""
    return int(message[8:11]) if message.startswith("SIP/2.0 ") else 0


def method_of(request):
    return request.split(" ", 1)[0]


def branch_of(message):
    """The branch of the top Via."""
    found = BRANCH.search(message)
    return found[1] if found else ""


def number_of(message):
    """The number in CSeq."""
    found = SEQUENCE.search(message)
    return int(found[1]) if found else 0


def key_of(message):
    """The top branch and the method in CSeq: what a request and its responses have in common (section 17.1.3)."""
    found = SEQUENCE.search(message)
    return branch_of(message), found[2] if found else ""


def handshake_of(message):
    """The Call-ID and the number in CSeq: what the final response to an INVITE and its ACK have in common."""
    return header(message, "Call-ID"), number_of(message)


def contact_of(message):
    """The URI in Contact."""
    return re.search(r"<(.*?)>", header(message, "Contact"))[1]


def write(first_line, lines, body=""):
    """A message of these header lines."""
    content = ["Content-Type: application/sdp"] if body else []
    return "\r\n".join([first_line, *lines, *content, f"Content-Length: {len(body)}", "", body])


def padded(message, length):
    """The message, with a Subject that makes it this long."""
    subject = "x" * (length - len(message) - len("\r\nSubject: "))
    return message.replace("\r\nContact:", f"\r\nSubject: {subject}\r\nContact:", 1)


class Dialog(NamedTuple):
    """What each request of a dialog repeats: the Call-ID, the telephone's own tag, and To."""

    call_id: str
    tag: str
    to: str


class Identity:
    """Who a telephone is: a user of a domain, at an address. It writes the telephone's messages."""

    def __init__(self, user, domain, ip, port, asks_for_port=False):
        self.user, self.domain, self.ip, self.port = user, domain, ip, port
        self.address = f"<sip:{user}@{domain}>"
        self.contact = f"<sip:{user}@{ip}:{port}>"
        # The server notes where the request came from (RFC 3581).
        self.via_ends = ";rport" if asks_for_port else ""

    def request(self, method, uri, dialog, number, branch, body="", further=()):
        """A request, with these further header lines."""
        via = f"Via: SIP/2.0/UDP {self.ip}:{self.port};branch={branch}{self.via_ends}"
        dialog_lines = [f"From: {self.address};tag={dialog.tag}", f"To: {dialog.to}", f"Call-ID: {dialog.call_id}"]
        own = [f"CSeq: {number} {method}", f"Contact: {self.contact}", *further]
        return write(f"{method} {uri} SIP/2.0", [via, "Max-Forwards: 70", *dialog_lines, *own], body)

    def response(self, request, status, tag, body=""):
        """A response, which adds this tag to a To that has none."""
        to = header(request, "To")
        to += "" if ";tag=" in to else f";tag={tag}"
        vias = [f"Via: {via}" for via in headers(request, "Via")]
        copied = [f"{name}: {header(request, name)}" for name in ("From", "Call-ID", "CSeq")]
        lines = [*vias, *copied, f"To: {to}", f"Contact: {self.contact}"]
        return write(f"SIP/2.0 {status} {REASONS[status]}", lines, body)

    def refusal_ack(self, invite, refusal):
        """The ACK of a final response other than 2xx, with the branch of its INVITE (section 17.1.1.3)."""
        tag = header(invite, "From").rpartition(";tag=")[2]
        dialog = Dialog(header(invite, "Call-ID"), tag, header(refusal, "To"))
        return self.request("ACK", invite.split(" ", 2)[1], dialog, number_of(invite), branch_of(invite))
