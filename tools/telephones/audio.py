"""Tones in RTP that carries G.711."""
import bisect
import math
import struct


def from_alaw(byte):
    byte ^= 0x55
    exponent, mantissa = (byte >> 4) & 7, byte & 15
    value = (mantissa << 4) + 8 if exponent == 0 else ((mantissa << 4) + 0x108) << (exponent - 1)
    return value if byte & 0x80 else -value


def from_ulaw(byte):
    byte = ~byte & 0xff
    value = (((byte & 15) << 3) + 0x84) << ((byte >> 4) & 7)
    return -(value - 0x84) if byte & 0x80 else value - 0x84


TABLES = {0: [from_ulaw(it) for it in range(256)], 8: [from_alaw(it) for it in range(256)]}


def payload(body):
    """The payload type of an RTP packet, and its payload (RFC 3550 section 5.1)."""
    start = 12 + 4 * (body[0] & 15)
    if body[0] & 16:
        start += 4 + 4 * struct.unpack("!H", body[start + 2:start + 4])[0]
    return body[1] & 127, body[start:]


def samples(bodies):
    """The samples of G.711 in RTP packets."""
    out = []
    for body in bodies:
        kind, data = payload(body)
        if kind in TABLES:
            out += [TABLES[kind][it] for it in data]
    return out


def loudness(found, tone):
    """How much of the samples' energy is in a tone of this many hertz, from 0 to 1 (Goertzel's sum)."""
    if len(found) < 800:
        return 0.0
    turn = 2 * math.cos(2 * math.pi * tone / 8000)
    one = two = 0.0
    for it in found:
        one, two = it + turn * one - two, one
    energy = sum(it * it for it in found)
    return 2 * (one * one + two * two - turn * one * two) / (len(found) * energy) if energy > len(found) * 100 else 0.0


def tone_in_alaw(tone):
    """A second of a tone of this many hertz, as A-law."""
    values = sorted((TABLES[8][it], it) for it in range(256))
    return bytes(values[min(bisect.bisect(values, (8000 * math.sin(2 * math.pi * tone * it / 8000), 0)), 255)][1] for it in range(8000))
