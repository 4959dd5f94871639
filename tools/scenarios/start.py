"""The salts of a server's start: whether they are drawn from the configured key, that is from the ChaCha20 stream that
begins at the microsecond of the start.

One integer has a word of each of many blocks, in lanes of 64 bits: the sum of two words stays in its lane."""
import struct

from scenarios.office import KEY
from scenarios.pace import slowed

WORD = 0xFFFFFFFF
CONSTANTS, KEY_WORDS = struct.unpack("<4I", b"expand 32-byte k"), struct.unpack("<8I", bytes.fromhex(KEY))
# The words of each quarter of a column round, then of a diagonal one (RFC 7539, section 2.3).
COLUMNS = [(at, at + 4, at + 8, at + 12) for at in range(4)]
DIAGONALS = [(at, (at + 1) % 4 + 4, (at + 2) % 4 + 8, (at + 3) % 4 + 12) for at in range(4)]
# The steps of a quarter round (section 2.1): the word to which another is added, the one that is then rotated, and by
# how many bits.
STEPS = (0, 1, 3, 16), (2, 3, 1, 12), (0, 1, 3, 8), (2, 3, 1, 7)
# The blocks of a stream that each microsecond of a second has; the salts of a block; and more salts than a scenario
# draws.
BLOCKS, IN_BLOCK, SALTS = 2**44, 8, 1_000
# The microseconds, of an idle computer, after the program is run in which it starts; and how many are tried at once.
STARTS, AT_ONCE = 1_000_000, 4_096


def lanes_of(words):
    return int.from_bytes(struct.pack(f"<{len(words)}Q", *words), "little")


def words_of(lanes, count):
    return struct.unpack(f"<{count}Q", lanes.to_bytes(8 * count, "little"))


def turn_quarter(state, quarter, mask):
    for onto, plus, turned, left in STEPS:
        onto, plus, turned = quarter[onto], quarter[plus], quarter[turned]
        state[onto] = state[onto] + state[plus] & mask
        mixed = state[turned] ^ state[onto]
        state[turned] = (mixed << left | mixed >> 32 - left) & mask


def blocks(counters, stream):
    """Blocks of the key: the lanes of each of their sixteen words."""
    each = lanes_of([1] * len(counters))
    mask = each * WORD
    counted = [lanes_of([counter >> shift & WORD for counter in counters]) for shift in (0, 32)]
    fixed = [word * each for word in (*CONSTANTS, *KEY_WORDS)]
    begin = [*fixed, *counted, (stream & WORD) * each, (stream >> 32) * each]
    state = [*begin]
    for _ in range(10):
        for quarter in COLUMNS + DIAGONALS:
            turn_quarter(state, quarter, mask)
    return [word + plus & mask for word, plus in zip(state, begin)]


def salts_of(counters, stream):
    """For each place in a block, the salts there in all these blocks. A salt has two words, the low half first."""
    words = blocks(counters, stream)
    return [words_of(low | high << 32, len(counters)) for low, high in zip(words[::2], words[1::2])]


def salts(start):
    """The first salts of the key at a start, in microseconds since 1970."""
    seconds, microsecond = divmod(start, 1_000_000)
    first = microsecond * BLOCKS
    return set().union(*salts_of(range(first, first + SALTS // IN_BLOCK), seconds))


def starts_with(drawn, begin, end):
    """The starts between these microseconds, within one second, whose first block has a salt that was drawn."""
    seconds, first = divmod(begin, 1_000_000)
    counters = [microsecond * BLOCKS for microsecond in range(first, first + end - begin)]
    return {begin + place.index(salt) for place in salts_of(counters, seconds) for salt in drawn.intersection(place)}


def parts(since, until):
    """The microseconds between these in parts, each within one second."""
    while since < until:
        end = min(until, since + AT_ONCE, (since // 1_000_000 + 1) * 1_000_000)
        yield since, end
        since = end


def are_of_key(drawn, since, until):
    """Whether these salts, in hexadecimal digits, are of the configured key, at a start between the microseconds at
    which the program is run and listens. The first events, which are registrations, draw from the first block. The
    search begins when the program is run: it starts soon after that, and then opens its sockets before it says that it
    listens."""
    wanted = {int(salt, 16) for salt in drawn}
    last = min(until, since + int(slowed(STARTS)))
    return any(wanted <= salts(start) for part in parts(since, last + 1) for start in starts_with(wanted, *part))
