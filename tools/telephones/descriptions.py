"""Descriptions of sessions as text (RFC 4566), which telephones offer and answer."""
import re


def describe(ip, session, version, lines, address=""):
    """A description of media at an address, or else at the telephone's own, which these lines name."""
    head = ["v=0", f"o=- {session} {version} IN IP4 {ip}", "s=-", f"c=IN IP4 {address or ip}", "t=0 0"]
    return "".join(f"{line}\r\n" for line in [*head, *lines])


def audio(port, direction="sendrecv"):
    """The lines of an audio medium in G.711 (PCMU)."""
    return [f"m=audio {port} RTP/AVP 0", "a=rtpmap:0 PCMU/8000", f"a={direction}"]


def media_port(description):
    """The port of the audio, or 0."""
    found = re.search(r"m=audio (\d+)", description)
    return int(found[1]) if found else 0
